module gogbetiku

go 1.19
