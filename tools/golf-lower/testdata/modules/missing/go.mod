module example.com/missing

go 1.22

require example.org/nowhere v1.0.0
