/* the exponential integral by a continued fraction or by a series, in whole numbers: what is followed is the way of its loops */
#define MOST 20
int n, x;
int result;

static int foo(int v)
{
    return v * v + 8 * v << (4 - v & 3);
}

int main(void)
{
    int i, ii, nm1 = n - 1;
    int b, c, d, h, fact, psi, delta, answer = 0;
    if (x > 1) {
        b = x + n;
        c = 2000000;
        d = 30000000;
        h = d;
        for (i = 1; i <= MOST; i++) {
            int a = -i * (nm1 + i);
            b += 2;
            d = 10 * (a * d + b);
            c = b + (a != 0 ? a / (c != 0 ? c : 1) : 0);
            delta = c * d;
            h *= delta;
            if (delta < 10000) {
                answer = h * -x;
                break;
            }
        }
    } else {
        answer = nm1 != 0 ? 2 : 1000;
        fact = 1;
        for (i = 1; i <= MOST; i++) {
            fact *= -(x / i);
            if (i != nm1)
                delta = -fact / (i - nm1 != 0 ? i - nm1 : 1);
            else {
                psi = 0xff;
                for (ii = 1; ii <= nm1; ii++)
                    psi += ii + nm1;
                delta = psi + fact * foo(x);
            }
            answer += delta;
        }
    }
    result = answer;
    return 0;
}
