// names of more than 28 bytes become shorter ones

int a_name_that_is_much_longer_than_names_may_be = 4; int main(void) { int a_local_that_is_much_longer_than_names_may_be = 3; return a_name_that_is_much_longer_than_names_may_be * a_local_that_is_much_longer_than_names_may_be; }

int a_function_that_has_quite_a_long_name_one(int x) { return x + 1; } int a_function_that_has_quite_a_long_name_two(int x) { return x + 2; } int main(void) { return a_function_that_has_quite_a_long_name_one(1) * 10 + a_function_that_has_quite_a_long_name_two(1); }

int a_function_that_counts_its_own_calls(void) { static int the_number_of_calls_until_now; return ++the_number_of_calls_until_now; } int main(void) { a_function_that_counts_its_own_calls(); return a_function_that_counts_its_own_calls(); }
