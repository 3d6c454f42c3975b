module ipcd

go 1.18
