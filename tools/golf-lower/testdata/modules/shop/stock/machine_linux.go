package stock

const machine = "linux"
