#pragma scop
for (i = 1; i < N; i++)
  for (j = 1; j < N; j++)
    A[i][j] = A[i-1][j] + A[i][j-1];
#pragma endscop
