from-ibnetdiscover ibnetdiscover.txt --map h0
