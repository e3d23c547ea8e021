int work(int n, int k) {
    assume(0 <= n && n <= 1000);
    assume(0 <= k && k <= 100);
    int s = 0;
    int t = 0;
    int i = 0;
    while (i < n) {
        s = s + 2 * k - k + 2;
        t = t + k - 1;
        if (t > 1000) t = t - 900 + k;
        i = i + 1;
    }
    int j = n;
    while (j > 0) {
        s = s + j - n + 3;
        if (s > 5000) { s = s - 4000 - k; t = t + 2 * k; }
        if (t > 2000) { t = t - 2 * k - 1500; }
        t = t + 3 * n - 2 * j - n;
        j = j - 1;
    }
    int m = 0;
    for (m = 0; m < 50; m++) {
        s = s + t - k;
        if (s > 3000) { s = s - 2 * t + k - 2000; }
        if (s < 0 - 3000) { s = 0 - 1000 + t; }
        t = t + 3 - k;
        if (t < 0) { t = t + 2 * k + 100; }
    }
    do {
        s = s - 1;
        t = t + m - 2 * k - 50;
        m = m + 1;
        i = i - 1;
    } while (m < 70);
    return s + t - 2 * i + 3 * j;
}
