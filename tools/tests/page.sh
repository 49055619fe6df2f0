page ../../examples/lost-message.in ../../examples/lost-message.out | grep -E '^<ul id="facts">|"events":\[' | sed 's/<li/\n<li/g; s/{"kind"/\n{"kind"/g'
echo
# Nothing is fetched: no address but the name of SVG's elements.
page ../../examples/room.in ../../examples/room.out |
  grep -Eo '(https?:)?//[a-z0-9.]+/|src=|href=|url\([^#)]*\)|@import' | sort -u
# A route that two menus choose is drawn along these lines: torus, cut at its edge.
page ../../examples/torus.in < ../../examples/torus.out | grep -c '<g class="cable" id="c[0-9]*" data-way="M[^L]*L[^M]*ML\?'
page ../../examples/torus.in ../../examples/torus.out | grep -Eo '<g class="cable" id="c31".*'
page ../../examples/cut-leaf.in ../../examples/cut-leaf.out | grep -Eo '<g class="vertex [^"]*lost" id="[^"]*"'
page ../../examples/self-cabled-map.in ../../examples/self-cabled-map.out --layout ring | grep -Eo '<g class="vertex [^"]*outside".*' | grep -Eo '<title>.*</title>'
# Cables that came and went.
page ../../examples/pulled-and-plugged.in ../../examples/pulled-and-plugged.out | grep -Eo '<b>[0-9]+</b> (pulled|plugged)'
page moves.in moves.report | grep -Eo '<g class="cable (gone|anew)"|<title>.*(pulled|plugged)[^<]*'
