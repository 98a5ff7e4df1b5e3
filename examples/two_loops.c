#pragma scop
for (i = 0; i < N; i++)
  A[i] = B[i];
for (i = 0; i < N - 1; i++)
  C[i] = A[i+1];
#pragma endscop
