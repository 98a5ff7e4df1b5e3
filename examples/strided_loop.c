#pragma scop
for (i = 0; i < N; i += 3)
  if (i % 2 == 0)
    A[i] = 1;
  else
    A[i] = 2;
#pragma endscop
