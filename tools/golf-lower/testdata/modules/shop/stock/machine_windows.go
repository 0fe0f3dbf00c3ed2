package stock

const machine = "windows"
