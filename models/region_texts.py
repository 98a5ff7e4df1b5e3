"""Regions of C with what is wrong with them, by hand; and those with which nothing is.

Each entry of TEXTS is a name, a C text, and the words of its refusal behind 'suite: refused 1 ', or None."""

LARGEST, TEXTS = 2**127 - 1, []


def region(body):
    return "#pragma scop\n" + body + ("\n" if body else "") + "#pragma endscop\n"


def text(name, text, refusal=None):
    TEXTS.append((name, text, refusal))


def ok(name, body):
    text(name, region(body))


def no(name, body, refusal):
    text(name, region(body), refusal)


# ---- regions that are translated, and limits
ok("empty_region", "")
ok("update_reads_first", "for (i = 0; i < N; i++)\n  A[i] += B[i];")
ok("overlapping_parts_and_else", "for (i = 0; i < N; i++)\n  if (i < 10 || i > 5)\n    A[i] = 1;\n  else\n    A[i] = 2;")
ok("downward", "for (i = N; i > 0; i--)\n  A[i] = A[i-1];")
ok("downward_met", "for (i = N; i >= 0; --i)\n  A[i] = A[i+1];")
ok("stride", "for (i = 0; i < N; i += 3)\n  A[i] = 0;")
ok("stride_downward", "for (i = N; i > 0; i -= 2)\n  A[i] = 0;")
ok("stride_of_one", "for (i = 0; i < N; i += 1)\n  A[i] = 0;")
ok("remainder_and_else", "for (i = 0; i < N; i++)\n  if (i % 2 == 0)\n    A[i] = 1;\n  else\n    A[i] = 2;")
ok("remainder_in_brackets", "for (i = 0; i < N; i++)\n  if (((i + 1) % (3)) != (0))\n    A[i] = 1;")
ok("remainder_by_one", "for (i = 0; i < N; i++)\n  if (i % 1 == 0)\n    A[i] = 1;")
ok("two_locals", "for (i = 0; i < N; i += 2)\n  for (j = i; j < N; j += 3)\n    if ((i + j) % 5 != 0)\n      A[i][j] = 0;")
ok("bounds_of_all_kinds", "for (i = max(0, ceild(N, 2)); i <= min(N, floord(M, 3)); i++)\n  A[i] = 0;")
ok("bounds_rounded_the_other_way", "for (i = floord(N, 2); i < ceild(M, 3); i++)\n  A[i] = 0;")
ok("bounds_downward", "for (i = min(N, ceild(M, 2)); i >= max(0, floord(M, 3)); i--)\n  A[i] = 0;")
ok("bounds_downward_strict", "for (i = min(N, floord(M, 2)); i > max(1, ceild(M, 3)); i--)\n  A[i] = 0;")
ok("bounds_nested", "for (i = max(max(1, N), max(M, 2)); i < min(min(N, M), 3 * N); i++)\n  A[i] = 0;")
ok("divisor_one", "for (i = ceild(N, 1); i <= floord(M, 1); i++)\n  A[i] = 0;")
ok("each_comparison", "for (i = 0; i < N; i++) {\n  if (i < M) A[i] = 0;\n  if (i <= M) A[i] = 1;\n  if (i > M) A[i] = 2;\n  if (i >= M) A[i] = 3;\n  if (i == M) A[i] = 4;\n  if (i != M) A[i] = 5;\n}")
ok("each_comparison_negated", "for (i = 0; i < N; i++) {\n  if (!(i < M)) A[i] = 0;\n  if (!(i <= M)) A[i] = 1;\n  if (!(i > M)) A[i] = 2;\n  if (!(i >= M)) A[i] = 3;\n  if (!(i == M)) A[i] = 4;\n  if (!(i != M)) A[i] = 5;\n}")
ok("negated_and_or", "for (i = 0; i < N; i++) {\n  if (!(i < M && i > 2)) A[i] = 0;\n  if (!(i < M || i > 2)) A[i] = 1;\n  if (!!(i == M)) A[i] = 2;\n}")
ok("and_of_unions", "for (i = 0; i < N; i++)\n  if ((i < 1 || i > 2) && (i < M || i != 7))\n    A[i] = 0;")
ok("else_of_conjunction", "for (i = 0; i < N; i++)\n  if (i > 2 && i < M && i != 5)\n    A[i] = 0;\n  else\n    B[i] = 0;")
ok("else_if_three_deep", "for (i = 0; i < N; i++)\n  if (i < 1)\n    A[i] = 0;\n  else if (i < 2)\n    A[i] = 1;\n  else if (i < 3)\n    A[i] = 2;\n  else\n    A[i] = 3;")
ok("else_of_nearest_if", "if (N > 1)\n  if (N > 2)\n    x = 1;\n  else\n    x = 2;")
ok("outer_and_inner_conditions", "if (N > 1 || M > 1)\n  for (i = 0; i < N; i++)\n    if (i != 3)\n      A[i] = 0;")
ok("sixty_four_parts", "if (" + " && ".join(f"N != {k}" for k in range(6)) + ")\n  x = 0;")
no("too_many_parts", "if (" + " && ".join(f"N != {k}" for k in range(7)) + ")\n  x = 0;", "10 TooManyParts 1")
no("too_many_parts_by_far", "if (" + " && ".join(f"N != {k}" for k in range(1000)) + ")\n  x = 0;", "10 TooManyParts 1")
no("too_many_parts_of_two_conditions", "x = 0;\nif (" + " && ".join(f"N != {k}" for k in range(4)) + ")\n  if (" + " && ".join(f"M != {k}" for k in range(3)) + ")\n    x = 1;", "10 TooManyParts 2")
ok("too_many_parts_round_nothing", "if (" + " && ".join(f"N != {k}" for k in range(7)) + ")\n  ;\nx = 0;")
no("too_many_parts_behind_else", "if (" + " || ".join(f"N == {k}" for k in range(20)) + ")\n  x = 0;\nelse\n  y = 0;", "10 TooManyParts 2")
ok("betas_count_assignments_and_their_loops", "for (i = 0; i < N; i++)\n  ;\nx = 0;\nfor (i = 0; i < N; i++) {\n  for (j = 0; j < N; j++)\n    ;\n  if (i > 2)\n    A[i] = 0;\n  else {\n    A[i] = 1;\n    for (j = 0; j < N; j++)\n      B[j] = 0;\n  }\n  A[i] = 2;\n}\ny = 0;")
ok("equal_names_in_neighbouring_loops", "for (i = 0; i < N; i++)\n  A[i] = 0;\nfor (i = 1; i < M; i++)\n  B[i] = A[i];")
ok("int_in_a_head", "for (int i = 0; i < N; i++)\n  A[i] = 0;")
ok("comments_and_ends_of_lines", "for (i = 0; i < N; i++) // all\r\n  A/* one */[ i ]\t=\r\n    B [i] /* b */ + /* c\n */ 2 ;\r")
ok("reads_in_order", "for (i = 0; i < N; i++)\n  A[i] *= f(B[i], (C[i] ? D[i+1] : x) + -N, i) + 1.5e-3 * A[2*i];")
ok("reads_of_scalars", "x = y + z;\nx += x;")
ok("no_parameters", "for (i = 0; i < 10; i++)\n  A[i] = i;")
ok("no_assignment", "for (i = 0; i < N; i++)\n  if (i < M)\n    ;")
ok("parameters_by_first_occurrence", "x = N;\nfor (i = M; i < N; i++)\n  A[i] = P;\nfor (i = 0; i < P; i++)\n  A[i] = 0;")
ok("plain_name_is_a_parameter_later", "A = N;\nfor (i = 0; i < N; i++)\n  B[i] = A;")
ok("affine_sums_and_products", "for (i = 0; i < N; i++)\n  A[-(i - 2*N) + 3*(i + 1)*2 - +4][(2)*i] = 0;")
ok("factor_cancels_its_names", "for (i = 0; i < N; i++)\n  A[(1 - 1) * i] = 0;")
ok("twelve_loops", "".join(f"for (i{k} = 0; i{k} < N; i{k}++)\n" for k in range(12)) + "A[i0] = 0;")
ok("subscripts_twelve", "A" + "[0]" * 12 + " = 0;")
no("subscripts_thirteen", "x = 0;\nA" + "[0]" * 13 + " = 0;", "17 Limit subscripts 2")
ok("accesses_256", "x = " + " + ".join(["y"] * 255) + ";")
no("accesses_257", "x = " + " + ".join(["y"] * 256) + ";", "17 Limit accesses 1")
no("accesses_257_by_an_update", "x += " + " + ".join(["y"] * 255) + ";", "17 Limit accesses 1")
ok("parameters_16", "".join(f"A[N{k}] = 0;\n" for k in range(16)).rstrip())
no("parameters_17", "".join(f"A[N{k}] = 0;\n" for k in range(17)).rstrip(), "17 Limit parameters 0")
ok("rows_256", "if (" + " && ".join(f"N > {k}" for k in range(256)) + ")\n  x = 0;")
no("rows_257", "if (" + " && ".join(f"N > {k}" for k in range(257)) + ")\n  x = 0;", "17 Limit rows 1")
ok("locals_24", "if (" + " && ".join(f"N % {k + 2} == 0" for k in range(24)) + ")\n  x = 0;")
no("locals_25", "if (" + " && ".join(f"N % {k + 2} == 0" for k in range(25)) + ")\n  x = 0;", "17 Limit locals 1")
no("limits_before_range", f"x = 0;\nA[{LARGEST} + 1] = 0;\nC" + "[0]" * 13 + " = 0;", "23 Overflow statement 2")

# ---- coefficients out of range

ok("largest_subscript", f"A[{LARGEST}] = 0;")
no("subscript_past_range", f"A[{LARGEST} + 1] = 0;", "23 Overflow statement 1")
ok("sum_is_limited_by_its_result", f"for (i = 0; i < N; i++)\n  A[{LARGEST}*i - {LARGEST}*i] = 0;")
ok("row_fits_though_sums_pass", f"if (N - {LARGEST} < 1)\n  x = 0;")
ok("ceiling_of_the_largest", f"for (i = 0; i < ceild({LARGEST}, 2); i++)\n  A[i] = 0;")
no("row_past_range", f"if (N + {LARGEST} > -2)\n  x = 0;", "23 Overflow statement 1")
no("bound_past_range", f"for (i = 0; i < N + {LARGEST} + 1; i++)\n  A[i] = 0;", "23 Overflow statement 1")
ok("past_range_round_nothing", f"for (i = 0; i < N + {LARGEST} + 1; i++)\n  ;\nx = 0;")
no("part_of_a_form_past_range", f"A[{LARGEST} + 1 - 1] = 0;", "23 Overflow statement 1")
ok("step_past_the_bound", "for (i = 0; i < 5; i += 1000)\n  A[i] = 0;")
ok("largest_step", f"for (i = 0; i < N; i += {LARGEST})\n  A[i] = 0;")
no("number_too_large", f"A[{LARGEST + 1}] = 0;", "12 NumberTooLarge 2 3")

# ---- names with two roles

no("name_clash_array_and_parameter", "for (i = 0; i < N; i++)\n  N[i] = 0;", "9 NameClash 3 3")
no("name_clash_later_parameter", "N = 1;\nA = N;\nfor (i = 0; i < N; i++)\n  A = 0;", "9 NameClash 3 5")
no("name_clash_two_arities", "A[0] = A[0][0];", "9 NameClash 2 8")
no("name_clash_function", "f = f(1);", "9 NameClash 2 5")
no("name_clash_iterator_assigned", "for (i = 0; i < N; i++)\n  i = 0;", "9 NameClash 3 3")
no("name_clash_own_start", "for (i = i; i < N; i++)\n  A[i] = 0;", "9 NameClash 2 10")
no("name_clash_own_bound", "for (i = 0; i < i; i++)\n  A[i] = 0;", "9 NameClash 2 17")
no("name_clash_inner_loop", "for (i = 0; i < N; i++)\n  for (i = 0; i < N; i++)\n    A[i] = 0;", "9 NameClash 3 8")
no("name_clash_iterator_outside", "for (i = 0; i < N; i++)\n  A[i] = 0;\nB[i] = 0;", "9 NameClash 4 3")
no("name_clash_before_not_affine", "A[i * j] = 0;\nA = 0;", "9 NameClash 3 1")
no("name_clash_in_no_assignment", "if (N[0] < 1)\n  ;\nx = N;", "9 NameClash 4 5")

# ---- values that are not affine

no("not_affine_product", "for (i = 0; i < N; i++)\n  A[i * N] = 0;", "8 NotAffine 3 5")
no("not_affine_product_that_cancels", "for (i = 0; i < N; i++)\n  A[(N - N) * i] = 0;", "8 NotAffine 3 5")
no("not_affine_quotient", "for (i = 0; i < N / 2; i++)\n  A[i] = 0;", "8 NotAffine 2 17")
no("not_affine_outermost_subscript", "A[B[i * j]] = 0;", "8 NotAffine 2 3")
no("not_affine_start_first", "for (i = N * N; i < M * M; i += 0)\n  A[i] = 0;", "8 NotAffine 2 10")
no("not_affine_bound_second", "for (i = N; i < M * M; i += 0)\n  A[i] = 0;", "8 NotAffine 2 17")
no("not_affine_step_last", "for (i = N; i < M; i += 0)\n  A[i] = 0;", "8 NotAffine 2 20")
no("not_affine_min_in_a_start", "for (i = min(N, M); i < M; i++)\n  A[i] = 0;", "8 NotAffine 2 10")
no("not_affine_max_in_a_bound", "for (i = 0; i < max(N, M); i++)\n  A[i] = 0;", "8 NotAffine 2 17")
no("not_affine_max_of_three", "for (i = max(N, M, 1); i < M; i++)\n  A[i] = 0;", "8 NotAffine 2 10")
no("not_affine_max_in_brackets", "for (i = (max(N, M)); i < M; i++)\n  A[i] = 0;", "8 NotAffine 2 10")
no("not_affine_max_start_of_a_stride", "for (i = max(N, M); i < M; i += 2)\n  A[i] = 0;", "8 NotAffine 2 10")
no("not_affine_divisor_zero", "for (i = ceild(N, 0); i < M; i++)\n  A[i] = 0;", "8 NotAffine 2 10")
no("not_affine_divisor_in_brackets", "for (i = ceild(N, (2)); i < M; i++)\n  A[i] = 0;", "8 NotAffine 2 10")
no("not_affine_condition_at_its_first_token", "if (N > 0 && N * N > 1)\n  x = 0;", "8 NotAffine 2 5")
no("not_affine_condition_of_one_value", "if (N)\n  x = 0;", "8 NotAffine 2 5")
no("not_affine_remainder_of_one", "if (N % 2 == 1)\n  x = 0;", "8 NotAffine 2 5")
no("not_affine_remainder_that_is_less", "if (N % 2 < 0)\n  x = 0;", "8 NotAffine 2 5")
no("not_affine_remainder_by_zero", "if (N % 0 == 0)\n  x = 0;", "8 NotAffine 2 5")
no("not_affine_two_comparisons", "if (0 < N < 5)\n  x = 0;", "8 NotAffine 2 5")
no("not_affine_in_no_assignment", "for (i = 0; i < N * N; i++)\n  ;", "8 NotAffine 2 17")
no("not_affine_in_a_test", "x = A[N * N] ? 1 : 2;", "8 NotAffine 2 7")

# ---- texts without one region, and regions outside the grammar

no("bad_token", "A[i] = 1 @ 2;", "5 BadToken 2 10")
no("bad_syntax", "A[i] = ;", "6 BadSyntax 2 8")
no("bad_syntax_at_the_end", "A[i] = 1", "6 BadSyntax 3 1")
no("bad_syntax_other_step", "for (i = 0; i < N; j++)\n  A[i] = 0;", "6 BadSyntax 2 20")
no("bad_syntax_reserved_iterator", "for (int = 0; int < N; int++)\n  A[int] = 0;", "6 BadSyntax 2 10")
no("bad_syntax_operator_as_name", "for (i = 0; i < max; i++)\n  A[i] = 0;", "6 BadSyntax 2 20")
no("too_deep_loops", "".join(f"for (i{k} = 0; i{k} < N; i{k}++)\n" for k in range(13)) + "A[i0] = 0;", "7 TooDeep 14 1")
no("too_deep_brackets", "x = " + "(" * 65 + "1" + ")" * 65 + ";", "7 TooDeep 2 69")
text("open_region", "#pragma scop\n", "3 OpenRegion 1")
text("second_region", region("x = 0;") + region("y = 0;"), "4 SecondRegion 4")
text("text_round_the_region", "int f(int N) {\n" + region("x = 0;") + "return 0; @\n}\n")
