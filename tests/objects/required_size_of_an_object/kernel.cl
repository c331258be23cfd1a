__kernel __attribute__((reqd_work_group_size(2, 1, 1))) void inc(__global int *a) { a[get_global_id(0)] = a[get_global_id(0)] + 1; }
