#pragma scop
for (t = 0; t <= floord(N - 1, 32); t++)
  for (i = max(32 * t, ceild(M, 2)); i <= min(32 * t + 31, N - 1); i++)
    A[i] = B[i];
#pragma endscop
