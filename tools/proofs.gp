\\ What crates/proof_vectors has to print, by the polynomials of PARI/GP:
\\     gp -q tools/proofs.gp > crates/proof_vectors/stdout

\\ words from a linear congruence, as the program has them
word = 1;
following() = word = (word * 1103515245 + 12345) % 2^32;

\\ the field of 256 elements, and that of the remainders by 2^31 - 1: an element of a word, and the number of an element
generator = ffgen(Mod(1, 2) * (x^8 + x^4 + x^3 + x + 1), 'g);
byte(w) = subst(Pol(binary(w \ 65536 % 256)), 'x, generator) + 0 * generator;
byte_number(e) = subst(e.pol, 'g, 2);
p = 2147483647;
residue(w) = Mod(w, p);
residue_number(e) = lift(e);

\\ a list of n elements of words that follow; an element that is not zero
list(n, element) = vector(n, i, element(following()));
nonzero(element) = { my(e = element(following())); while (e == 0, e = element(following())); e };

coefficients(f, n, zero) = vector(n, k, polcoef(f, k - 1, 'X) + zero);
show(name, list, number) = { print1(name); for (i = 1, #list, print1(" ", number(list[i]))); print() };

\\ h[k] = c[k] / (gamma^d - gamma^k), where c is X^d * a(X) * b(1/X), and h[d] is free
twisted(a, b, d, gamma, free) = {
  my(c = Polrev(a, 'X) * Polrev(Vecrev(b), 'X));
  vector(2 * d + 1, i, my(k = i - 1); if (k == d, free, polcoef(c, k, 'X) / (gamma^d - gamma^k)))
};

proof(m, n, element, number, gamma) = {
  my(N = 3 * n + 1, zero = element(0), one = zero + 1, M, wl, wr, wo, alpha, beta, free1, free2, f, d, q, r, h1, h2);
  M = list(m * N, element); wl = list(n, element); wr = list(n, element); wo = list(n, element);
  alpha = nonzero(element); beta = nonzero(element); free1 = element(following()); free2 = element(following());
  d = divrem(Polrev(M, 'X), 'X^N - alpha, 'X);
  r = coefficients(d[2], N, zero); q = coefficients(d[1], (m - 1) * N, zero);
  h1 = twisted(r, concat([[one], wl, wr, wo]), 3 * n, gamma, free1);
  h2 = twisted(vector(n, i, beta^(i - 1) * wl[i]), wr, n - 1, gamma, free2);
  print("m ", m, " n ", n);
  show("r", r, number); show("q", q, number); show("h1", h1, number); show("h2", h2, number)
};

for (m = 1, 4, for (n = 1, 5, proof(m, n, residue, residue_number, residue(7))));
for (m = 1, 4, for (n = 1, 5, proof(m, n, byte, byte_number, byte(3 * 65536))));
proof(64, 85, residue, residue_number, residue(7));
proof(64, 42, byte, byte_number, byte(3 * 65536));
quit
