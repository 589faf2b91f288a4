module hidrezsol.example/denial

go 1.19
