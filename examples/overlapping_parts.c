#pragma scop
for (i = 0; i < N; i++)
  if (i < 10 || i > 5)
    A[i] = 1;
  else
    A[i] = 2;
#pragma endscop
