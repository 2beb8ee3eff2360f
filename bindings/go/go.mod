module enforce

go 1.19
