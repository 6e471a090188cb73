module cukvashe

go 1.19
