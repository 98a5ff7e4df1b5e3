#pragma scop
for (i = 0; i <= N; i++)
  A[i] = 0;
#pragma endscop
