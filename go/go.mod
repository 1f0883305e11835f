module twodfq.example/go

go 1.19
