make torus 2 3 --traffic shift --by 2 --bytes 9 --faults 3 --seed 5
for shape in 'fat-tree 4' 'fat-tree 4 --levels 3' 'fat-tree 16' 'torus 4 4' 'ring 9 --hosts 2' 'dragonfly 5 4' 'random 12 20 --seed 4'; do
  echo "$shape: $(make $shape | cut -d ' ' -f 1 | sort | uniq -c | tr -s ' \n' ' ')"
done
# Each message has its token, a buffer of its size and two polls, in as many batches as it takes.
for traffic in 'all' 'shift --by 3 --bytes 3000' 'one --bytes 0'; do
  echo "$traffic: $(make fat-tree 16 --leaves 9 --traffic $traffic | cut -d ' ' -f 1 | grep -E '^(open|provide|send|poll|settle)' | sort | uniq -c | tr -s ' \n' ' ')"
done
make ring 3 --traffic one --bytes 0 | grep provide
make ring 3 --traffic one --bytes 8185 | grep provide
