(hash sha256 |UnzGHrxItPNFRKJgemx8YiNWj6gaHAp91SzcWUB/7qI=|)
