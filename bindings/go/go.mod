module simplexaudit

go 1.18
