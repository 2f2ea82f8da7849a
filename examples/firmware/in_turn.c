/* The programs of this folder, one after another: each is compiled with another name for its main. It prints what they
   print, and ends with status 1 where one of them does. */

int main_sort(void);
int main_crc32(void);
int main_sha256(void);
int main_division(void);
int main_print(void);
int main_strings(void);
int main_floats(void);
int main_fields(void);

int main(void)
{
    int failed = 0;
    failed |= main_sort();
    failed |= main_crc32();
    failed |= main_sha256();
    failed |= main_division();
    failed |= main_print();
    failed |= main_strings();
    failed |= main_floats();
    failed |= main_fields();
    return failed;
}
