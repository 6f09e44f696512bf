module yezhirop.example/krl

go 1.19
