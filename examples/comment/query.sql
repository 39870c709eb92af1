SELECT A FROM T -- all of them
