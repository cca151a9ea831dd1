\\ For PARI/GP: runs the program unmix on patterns, and checks what it prints by gp's own arithmetic:
\\
\\     $ gp tools/unmix.gp
\\     ? unmix_check([1,2,0], 10, [1,2,5])             \\ pattern, modulus and, if wanted, readings
\\     ? unmix_check(unmix_ring(x^7 + 3, 5, 8), 8)     \\ a polynomial, on a ring of 5
\\     ? unmix_check([1,2,0], 18, , [2,1;9,1])         \\ another factor list than gp's: 9 is not a prime
\\     ? unmix_figures()
\\     ? unmix_random(200)
\\     ? unmix_random_lists(200)
\\     ? unmix_save("mine.sheet", [1,2,0], 10, [1,2,5])
\\
\\ and `?unmix_check` tells more, as for the others. gp can be started in any folder, and read() and \r do as well.
\\ Patterns and readings are vectors of n whole numbers from 0 to m-1, entry 0 first; factor lists are matrices as
\\ factor() gives them. Where something is wrong, with what was given or with what the program prints, one line says
\\ what, and 0 is returned.
\\
\\ gp's strings hold no zero byte, so the bytes of a sheet go through the shell's printf, each as an octal escape.

\\ ---- Faults

unmix_demand(holds, said) = if(!holds, error(said));

unmix_one_line(said) = strjoin(strsplit(said, "\n"), " ");

\\ What the work returns; but where a demand did not hold, one line says so, and it is 0.
unmix_tried(work) =
  iferr(work(), fault, print("unmix: ", unmix_one_line(component(fault, 1)[1])); 0, errname(fault) == "e_USER");

\\ A whole number as it is, of anything else the type.
unmix_shown(given) = if(type(given) == "t_INT", Str(given), type(given));

unmix_demand_string(given, name) =
  unmix_demand(type(given) == "t_STR", Str(name, " must be a string, not ", unmix_shown(given)));

unmix_demand_whole(given, name, least, most = 2^32 - 1) =
{
  unmix_demand(type(given) == "t_INT" && least <= given && given <= most,
    Str(name, " must be a whole number from ", least, " to ", most, ", not ", unmix_shown(given)));
}

unmix_demand_ring(given, name) =
{
  my(hint = if(type(given) == "t_POL", " (unmix_ring makes one from a polynomial)", ""));
  unmix_demand(type(given) == "t_VEC", Str(name, " must be a row vector, not ", unmix_shown(given), hint));
  for(i = 1, #given, unmix_demand_whole(given[i], Str("entry ", i - 1, " of ", name), 0));
}

\\ An empty matrix may be typed as [;], which has no columns.
unmix_demand_list(given) =
{
  my(shown = if(type(given) == "t_MAT", Str("one of ", #given), unmix_shown(given)));
  my(hint = if(type(given) == "t_VEC", " (Mat makes one from a row)", ""));
  unmix_demand(type(given) == "t_MAT" && (#given == 0 || #given == 2),
    Str("the factor list must be a matrix of two columns, primes and exponents, not ", shown, hint));
  for(i = 1, #given~,
    unmix_demand_whole(given[i, 1], Str("the prime of entry ", i - 1), 0);
    unmix_demand_whole(given[i, 2], Str("the exponent of entry ", i - 1), 0, 255));
}

\\ gp takes an omitted argument for 0, unless another default is named. No one gives this variable by mistake.
unmix_is_given(argument) = !(argument === 'unmix_absent);

unmix_demand_kinds(f, m, readings, list) =
{
  unmix_demand_ring(f, "the pattern");
  unmix_demand_whole(m, "the modulus", 0);
  if(unmix_is_given(readings), unmix_demand_ring(readings, "the readings"));
  if(unmix_is_given(list), unmix_demand_list(list));
}

\\ ---- Sheets

unmix_bytes(number, count) = vector(count, i, number \ 256^(count - i) % 256);

unmix_join(parts) = concat(concat([[]], parts));

unmix_field(tag, value) =
{
  unmix_demand(#value < 256^2, Str("a field of ", #value, " bytes is too long for a sheet"));
  unmix_join([[tag], unmix_bytes(#value, 2), value]);
}

unmix_words(ring) = unmix_join(apply(entry -> unmix_bytes(entry, 4), ring));

unmix_factors(list) = unmix_join(vector(#list~, i, concat(unmix_bytes(list[i, 1], 4), unmix_bytes(list[i, 2], 1))));

\\ The factor list that is given, else gp's.
unmix_list(m, list) = if(unmix_is_given(list), list, factor(m));

unmix_make(f, m, readings = 'unmix_absent, list = 'unmix_absent) =
{
  unmix_demand_kinds(f, m, readings, list);
  unmix_join([unmix_field(1, [1]), unmix_field(2, unmix_bytes(m, 4)),
    unmix_field(3, unmix_factors(unmix_list(m, list))), unmix_field(4, unmix_words(f)),
    if(unmix_is_given(readings), unmix_field(5, unmix_words(readings)), [])]);
}

\\ ---- Polynomials

unmix_is_polynomial(given) = type(given) == "t_INT" || (type(given) == "t_POL" && variable(given) == 'x);

\\ A polynomial may be given modulo a number or another polynomial; it comes with whole coefficients.
unmix_lifted(given) =
{
  my(f = if(setsearch(["t_INTMOD", "t_POL", "t_POLMOD"], type(given)), liftall(given), given));
  unmix_demand(unmix_is_polynomial(f), Str("not a polynomial in x: ", unmix_shown(f)));
  foreach(Vec(f), entry, unmix_demand(type(entry) == "t_INT", Str("not a whole coefficient: ", unmix_shown(entry))));
  f;
}

\\ ---- Shell commands

unmix_quoted(word) = Str("'", strjoin(strsplit(word, "'"), "'\\''"), "'");

unmix_printf(bytes) =
{
  unmix_demand(#bytes <= 25000, Str("a sheet of ", #bytes, " bytes is too long for a shell command"));
  Str("printf '%b' '", strjoin(apply(byte -> strprintf("\\0%03o", byte), bytes)), "'");
}

unmix_write(file, bytes) =
{
  unmix_demand_string(file, "the file's name");
  unmix_demand(system(Str("(", unmix_printf(bytes), " > ", unmix_quoted(file), ") 2> /dev/null")) == 0,
    Str("cannot write ", file));
}

\\ The lines that the program prints.
unmix_ask(bytes) =
{
  my(lines);
  unmix_demand_string(unmix_program, "unmix_program");
  lines = externstr(Str("program=$(command -v ", unmix_quoted(unmix_program), ") && [ -f \"$program\" ] && ",
    "[ -x \"$program\" ] && ", unmix_printf(bytes), " | \"$program\""));
  unmix_demand(#lines, Str("there is no program ", unmix_program, ", or it prints nothing (unmix_program names it)"));
  lines;
}

\\ While gp reads this file, gp has it open, and Linux tells where it is. The program is in the folder above: in
\\ target/bin of a checkout, in bin of a distribution.
unmix_find() =
{
  my(found = externstr(strjoin(["for open in /proc/$PPID/fd/*; do script=$(readlink \"$open\");",
    "case $script in */unmix.gp) for place in target/bin bin; do program=${script%/*/*}/$place/unmix;",
    "[ -x \"$program\" ] && echo \"$program\" && exit; done;; esac; done"], " ")));
  if(#found, found[1], "target/bin/unmix");
}

unmix_program = unmix_find();

\\ ---- What should be printed

\\ The refusal of a sheet that does not read; "" if there is none, as in what follows.
unmix_sheet_refusal(f, m, readings, list) =
{
  if(#list~ > 7, return("refused 22 at 11"));
  if(#f > 1024, return(Str("refused 22 at ", #unmix_make([], m, , list) - 3)));
  if(unmix_is_given(readings) && #f != #readings, return(Str("refused 22 at ", #unmix_make(f, m, , list))));
  "";
}

\\ Of one entry of a factor list, after those before it.
unmix_entry_refusal(list, i) =
{
  if(list[i, 2] == 0, return(Str("refused 10 at ", i - 1)));
  if(!isprime(list[i, 1]), return(Str("refused 11 at ", i - 1)));
  if(i > 1 && list[i, 1] <= list[i - 1, 1], return(Str("refused 12 at ", i - 1)));
  "";
}

\\ Of a list of up to seven entries.
unmix_list_refusal(list, m) =
{
  my(refusal);
  if(#list~ == 0, return("refused 5"));
  for(i = 1, #list~, refusal = unmix_entry_refusal(list, i); if(refusal != "", return(refusal)));
  if(factorback(list) == m, "", "refused 13");
}

\\ Of entries that are not below m.
unmix_entries_refusal(rings, m) =
{
  my(high);
  for(r = 1, #rings,
    high = select(entry -> entry >= m, rings[r], 1);
    if(#high, return(Str("refused 6 ring ", r, " at ", high[1] - 1))));
  "";
}

unmix_refusal(f, m, readings, list) =
{
  my(rings = if(unmix_is_given(readings), [f, readings], [f]), refusal = unmix_sheet_refusal(f, m, readings, list));
  if(refusal != "", return(refusal));
  if(#f == 0, return("refused 1"));
  if(m < 2 || m > 1000000, return("refused 4"));
  refusal = unmix_list_refusal(list, m);
  if(refusal != "", refusal, unmix_entries_refusal(rings, m));
}

unmix_mix(a, b, m) = Vecrev(Polrev(a) * Polrev(b) % ('x^#a - 1), #a) % m;

unmix_circle(n, p) = ('x^n - 1) * Mod(1, p);

unmix_shared(f, p) = gcd(Polrev(f) * Mod(1, p), unmix_circle(#f, p));

\\ The smallest singular prime; 0 if there is none.
unmix_singular(f, m) =
{
  foreach(factor(m)[, 1], p, if(poldegree(unmix_shared(f, p)) >= 1, return(p)));
  0;
}

\\ (x^n - 1) / gcd(f, x^n - 1), made monic, times m/p; the quotient is 1 where f is zero modulo p.
unmix_ghost(f, m, p) =
{
  my(w = unmix_circle(#f, p) / unmix_shared(f, p));
  m / p * lift(Vecrev(w / pollead(w), #f));
}

\\ ---- Demands on what is printed

unmix_number(word) = fromdigits(apply(code -> code - 48, Vec(Vecsmall(word))));

unmix_line(head, entries) = strjoin(concat([head], apply(entry -> Str(entry), entries)), " ");

\\ The n entries of a line, which must be the head, one blank before each entry, and entries below m.
unmix_entries(line, head, n, m) =
{
  my(words = strsplit(line, " "), entries);
  unmix_demand(#words > n, Str("it should print '", head, "' and ", n, " entries, not: ", line));
  entries = apply(unmix_number, words[#words - n + 1 .. #words]);
  unmix_demand(line == unmix_line(head, entries), Str("it should print '", head, "' and ", n, " entries, not: ", line));
  unmix_demand(vecmax(entries) < m, Str("an entry is not below ", m, ": ", line));
  entries;
}

unmix_demand_inverse(line, f, m) =
{
  my(product = unmix_mix(f, unmix_entries(line, "inverse", #f, m), m));
  unmix_demand(product == Vecrev(1, #f), Str("pattern times inverse is ", product, ": ", line));
}

unmix_demand_ghost(line, f, m, p) =
{
  my(ghost = unmix_entries(line, Str("singular ", p, " ghost"), #f, m), heard = unmix_mix(f, ghost, m));
  unmix_demand(heard == vector(#f), Str("pattern times ghost is ", heard, ": ", line));
  unmix_demand(ghost == unmix_ghost(f, m, p), Str("the ghost should be ", unmix_ghost(f, m, p), ": ", line));
}

unmix_demand_counts(line, f, m, readings) =
{
  my(heard = unmix_mix(f, unmix_entries(line, "counts", #f, m), m));
  unmix_demand(heard == readings, Str("pattern times counts is ", heard, ": ", line));
}

unmix_demand_first(lines, first) =
  unmix_demand(#lines && lines[1] == first, Str("it should print '", first, "' first, not: ", strjoin(lines, ", ")));

unmix_demand_number(lines, wanted) =
  unmix_demand(#lines == wanted, Str("there should be ", wanted, " lines: ", strjoin(lines, ", ")));

unmix_demand_answer(lines, f, m, readings) =
{
  my(p = unmix_singular(f, m), counted = !p && unmix_is_given(readings));
  unmix_demand_first(lines, Str("ring ", #f, " modulus ", m));
  unmix_demand_number(lines, 2 + counted);
  if(p, unmix_demand_ghost(lines[2], f, m, p), unmix_demand_inverse(lines[2], f, m));
  if(counted, unmix_demand_counts(lines[3], f, m, readings));
}

unmix_demand_lines(lines, f, m, readings = 'unmix_absent, list = 'unmix_absent) =
{
  my(refusal = unmix_refusal(f, m, readings, unmix_list(m, list)));
  if(refusal == "",
    unmix_demand_answer(lines, f, m, readings),
    unmix_demand_first(lines, refusal);
    unmix_demand_number(lines, 1));
}

\\ ---- Many at once

\\ Document 01's figures that the program can show: the pattern, the modulus and the line.
unmix_all_figures =
{
  [[[1,2,0], 4, "inverse 1 2 0"],
   [[1,2], 8, "inverse 5 6"],
   [[2,3], 9, "inverse 5 6"],
   [[1,1,0], 5, "inverse 3 2 3"],
   [[0,1,0], 6, "inverse 0 0 1"],
   [[3], 1000, "inverse 667"],
   [[1,1], 10, "singular 2 ghost 5 5"],
   [[1,1,0], 6, "singular 2 ghost 3 3 3"],
   [[1,1,1], 1000, "singular 2 ghost 500 500 0"],
   [[3,2,0], 1000, "singular 5 ghost 200 200 200"],
   [[0], 1000, "singular 2 ghost 500"],
   [[1,2,0], 10, "inverse 9 2 6"]]
};

unmix_demand_figure(f, m, line) =
{
  my(lines = unmix_ask(unmix_make(f, m)));
  unmix_demand_lines(lines, f, m);
  unmix_demand(lines[2] == line, Str("document 01 has: ", line, ", not: ", lines[2]));
}

\\ Any number as often as a power of a small one, for which inverses are lifted.
unmix_random_modulus(most) =
{
  my(base = 2 + random(min(9, most - 1)));
  if(random(2), 2 + random(most - 1), base^(1 + random(logint(most, base))));
}

unmix_random_ring(n, m) = vector(n, i, random(m));

\\ A random pattern is tried; whether it is singular.
unmix_try_random(most_n, most_m) =
{
  my(n = 1 + random(most_n), m = unmix_random_modulus(most_m), f = unmix_random_ring(n, m));
  my(readings = if(random(2), unmix_random_ring(n, m), 'unmix_absent));
  unmix_demand_lines(unmix_ask(unmix_make(f, m, readings)), f, m, readings);
  unmix_singular(f, m) > 0;
}

\\ A factor list as a vector of pairs, of which one is changed in a way that a typing person might: its exponent or its
\\ number is another, it stands elsewhere, is left out or stands there twice.
unmix_mistyped(pairs) =
{
  my(i = 1 + random(#pairs), j = 1 + random(#pairs), way = random(6), changed = pairs);
  if(way == 0, changed[i][2] = 0);
  if(way == 1, changed[i][2] += random(4));
  if(way == 2, changed[i][1] = if(random(2), random(12), pairs[i][1] * prime(1 + random(3))));
  if(way == 3, changed[i] = pairs[j]; changed[j] = pairs[i]);
  if(way == 4, changed = concat(pairs[1 .. i - 1], pairs[i + 1 .. #pairs]));
  if(way == 5, changed = concat([pairs[1 .. i], [pairs[j]], pairs[i + 1 .. #pairs]]));
  changed;
}

\\ The factor list of m after up to three mistakes.
unmix_random_list(m) =
{
  my(right = factor(m), pairs = vector(#right~, i, right[i, ]));
  for(mistake = 1, random(4), if(#pairs, pairs = unmix_mistyped(pairs)));
  matrix(#pairs, 2, i, column, pairs[i][column]);
}

\\ A random factor list is tried; whether it is refused.
unmix_try_random_list(most_m) =
{
  my(m = unmix_random_modulus(most_m), list = unmix_random_list(m), f = unmix_random_ring(1 + random(8), m + 1));
  unmix_demand_lines(unmix_ask(unmix_make(f, m, , list)), f, m, , list);
  unmix_refusal(f, m, 'unmix_absent, list) != "";
}

\\ ---- What is called by hand

unmix_ring(f, n, m) =
{
  unmix_tried(() ->
    my(g = unmix_lifted(f));
    unmix_demand_whole(n, "the ring's length", 1, 16383);
    unmix_demand_whole(m, "the modulus", 1);
    Vecrev(g % ('x^n - 1), n) % m);
}

unmix_sheet(f, m, readings = 'unmix_absent, list = 'unmix_absent) =
  unmix_tried(() -> unmix_make(f, m, readings, list));

unmix_save(file, f, m, readings = 'unmix_absent, list = 'unmix_absent) =
  unmix_tried(() -> unmix_write(file, unmix_make(f, m, readings, list)); 1);

unmix_run(f, m, readings = 'unmix_absent, list = 'unmix_absent) =
  unmix_tried(() -> unmix_ask(unmix_make(f, m, readings, list)));

unmix_verify(lines, f, m, readings = 'unmix_absent, list = 'unmix_absent) =
{
  unmix_tried(() ->
    unmix_demand(type(lines) == "t_VEC", Str("the lines must be a row vector, not ", unmix_shown(lines)));
    foreach(lines, line, unmix_demand_string(line, "a line"));
    unmix_demand_kinds(f, m, readings, list);
    unmix_demand_lines(lines, f, m, readings, list);
    1);
}

unmix_check(f, m, readings = 'unmix_absent, list = 'unmix_absent) =
{
  unmix_tried(() ->
    my(lines = unmix_ask(unmix_make(f, m, readings, list)));
    foreach(lines, line, print(line));
    unmix_demand_lines(lines, f, m, readings, list);
    1);
}

unmix_figures() =
{
  unmix_tried(() ->
    foreach(unmix_all_figures, figure, call(unmix_demand_figure, figure));
    print(#unmix_all_figures, " figures, all right");
    1);
}

unmix_random(count, most_n = 64, most_m = 1000000) =
{
  unmix_tried(() ->
    unmix_demand_whole(count, "the count", 1);
    unmix_demand_whole(most_n, "the greatest length", 1, 1024);
    unmix_demand_whole(most_m, "the greatest modulus", 2, 1000000);
    my(ghosts = sum(i = 1, count, unmix_try_random(most_n, most_m)));
    print(count, " patterns, ", ghosts, " of them singular, all right");
    1);
}

unmix_random_lists(count, most_m = 1000000) =
{
  unmix_tried(() ->
    unmix_demand_whole(count, "the count", 1);
    unmix_demand_whole(most_m, "the greatest modulus", 2, 1000000);
    my(refused = sum(i = 1, count, unmix_try_random_list(most_m)));
    print(count, " factor lists, ", refused, " of them refused, all right");
    1);
}

{
addhelp(unmix_program, Str("unmix_program: the path of the program that reads a sheet and prints; it is looked for ",
  "beside the script, and may be set."));
}
{
addhelp(unmix_ring, Str("unmix_ring(f,n,m): the vector of the n entries of the polynomial f in x, modulo x^n - 1 ",
  "and m."));
}
{
addhelp(unmix_sheet, Str("unmix_sheet(f,m,{readings},{list}): the bytes of the pattern sheet. The factor list is ",
  "factor(m) unless another is given."));
}
addhelp(unmix_save, "unmix_save(file,f,m,{readings},{list}): writes the pattern sheet to a file; 1 if it could.");
addhelp(unmix_run, "unmix_run(f,m,{readings},{list}): the lines that the program prints for the sheet.");
{
addhelp(unmix_verify, Str("unmix_verify(lines,f,m,{readings},{list}): 1 if these lines are what the program should ",
  "print; otherwise 0, and a line says why. The inverse must give a product of 1, the counts must give the readings; ",
  "the prime must be the smallest singular one, and the ghost m/p times the monic polynomial of least degree that f ",
  "does not hear; of a wrong factor list, the first entry that is bad must be told."));
}
{
addhelp(unmix_check, Str("unmix_check(f,m,{readings},{list}): runs the program, shows what it prints and verifies it; ",
  "1 if all is right."));
}
addhelp(unmix_figures, "unmix_figures(): verifies document 01's figures; 1 if all are right.");
{
addhelp(unmix_random, Str("unmix_random(count,{most_n=64},{most_m=1000000}): verifies random patterns, half of them ",
  "with readings; 1 if all are right."));
}
{
addhelp(unmix_random_lists, Str("unmix_random_lists(count,{most_m=1000000}): verifies what is printed for random ",
  "factor lists, most of them wrong; 1 if all are right."));
}
