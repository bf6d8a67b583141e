total = 0;
limit = total = 10;
limit;
totla;
limit();
