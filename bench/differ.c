/* Counts the samples in which two files of planes differ, by how much: differ FILE FILE */
#include <stdio.h>
#include <stdlib.h>

int main(int count, char **words) {
    if (count != 3)
        return 2;
    FILE *first = fopen(words[1], "rb"), *second = fopen(words[2], "rb");
    if (!first || !second)
        return 1;
    static unsigned char a[1 << 16], b[1 << 16];
    long long same = 0, by_one = 0, more = 0;
    size_t length, other;
    do {
        length = fread(a, 1, sizeof a, first);
        other = fread(b, 1, sizeof b, second);
        if (length != other)
            return 1;
        for (size_t i = 0; i < length; i++) {
            int difference = abs(a[i] - b[i]);
            *(difference == 0 ? &same : difference == 1 ? &by_one : &more) += 1;
        }
    } while (length > 0);
    printf("of %lld samples %lld differ by 1 and %lld by more\n", same + by_one + more, by_one, more);
    return 0;
}
