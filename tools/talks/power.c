/* A power by a function that calls itself; the program ends with it as its code. */
int total;

int power(base, exponent)
int base, exponent;
{
    int rest;

    if (exponent == 0)
        return 1;
    rest = power(base, exponent - 1);
    return base * rest;
}

int main()
{
    total = power(3, 4);
    return total;
}
