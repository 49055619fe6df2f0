from-ibnetdiscover large.txt
