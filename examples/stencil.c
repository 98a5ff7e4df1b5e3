#pragma scop
for (i = 1; i < N; i++)
  for (j = 0; j < M; j++)
    A[i][j] = A[i-1][j+1];
#pragma endscop
