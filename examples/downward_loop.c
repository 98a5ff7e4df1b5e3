#pragma scop
for (i = N; i >= 0; i--)
  A[i] = A[i+1];
#pragma endscop
