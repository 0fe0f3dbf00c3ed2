module example.com/shop

go 1.22

require example.org/tax v1.2.0
