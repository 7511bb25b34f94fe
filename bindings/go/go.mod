module covetrivet

go 1.19
