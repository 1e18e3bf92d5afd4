\\ What crates/vectors has to print, by the finite fields of PARI/GP:
\\     gp -q tools/vectors.gp > crates/vectors/stdout

\\ the field of 256 elements: a byte is the polynomial of its binary digits
generator = ffgen(Mod(1, 2) * (x^8 + x^4 + x^3 + x + 1), 'g);
element(n) = subst(Pol(binary(n)), 'x, generator) + 0 * generator;
byte(e) = subst(e.pol, 'g, 2);
elements = vector(256, i, element(i - 1));

hex(n) = strprintf("%02x", n);
products(a) = strjoin(vector(256, i, hex(byte(elements[a + 1] * elements[i]))));
inverses() = strjoin(vector(256, i, if (i == 1, "--", hex(byte(1 / elements[i])))));

for (a = 0, 255, print(products(a)));
print(inverses());

\\ the remainders by the prime 2^31 - 1
p = 2147483647;
product(a, b) = lift(Mod(a, p) * Mod(b, p));
inverse(a) = if (a % p == 0, "-", lift(1 / Mod(a, p)));
line(a, b) = print(a, " ", b, " ", product(a, b), " ", inverse(a));

edges = [0, 1, 2, p - 1, p, p + 1, 2^32 - 1];
for (i = 1, 7, for (j = 1, 7, line(edges[i], edges[j])));

\\ each of 4000 words with the one that follows it
following(word) = (word * 1103515245 + 12345) % 2^32;
word = 1;
for (i = 1, 4000, then = following(word); line(word, then); word = then);
quit
