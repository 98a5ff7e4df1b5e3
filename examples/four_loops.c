#pragma scop
for (i = 1; i < N - 1; i++)
  A1[i] = A0[i-1] + A0[i+1];
for (i = 1; i < N - 1; i++)
  A2[i] = A1[i-1] + A1[i+1];
for (i = 1; i < N - 1; i++)
  A3[i] = A2[i-1] + A2[i+1];
for (i = 1; i < N - 1; i++)
  A4[i] = A3[i-1] + A3[i+1];
#pragma endscop
