from-ibnetdiscover names.txt
