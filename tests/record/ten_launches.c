/* ten_launches.c: an OpenCL program as people write them, with ten launches of five kernels: buffers that are written,
   filled by kernels, and read again; numbers, vectors and local memory as arguments; two and three dimensions, an offset,
   a group size that is left open; and a buffer that is bound twice. It prints one number of what it read. */
#define CL_TARGET_OPENCL_VERSION 120
#define CL_USE_DEPRECATED_OPENCL_1_2_APIS
#include <CL/cl.h>
#include <stdio.h>
#include <stdlib.h>

#define COUNT 64

static const char *part[] = {
  "#define SQUARE(x) ((x) * (x))\n"
  "typedef struct { int value; uint times; } cell;\n"
  "__kernel void scale(__global int *a, const int factor, const uint add) { size_t i = get_global_id(0); "
  "a[i] = a[i] * factor + add; }\n"
  "__kernel void squares(__global const int *from, __global int *to) { int i = get_global_id(0); to[i] = SQUARE(from[i]); }\n",
  "__kernel void sums(__global const int *a, __global int *sums, __local int *part) {\n"
  "  int l = get_local_id(0), n = get_local_size(0);\n"
  "  part[l] = a[get_global_id(0)];\n"
  "  barrier(CLK_LOCAL_MEM_FENCE);\n"
  "  for (int half_of = n / 2; half_of > 0; half_of /= 2) {\n"
  "    if (l < half_of) part[l] += part[l + half_of];\n"
  "    barrier(CLK_LOCAL_MEM_FENCE);\n"
  "  }\n"
  "  if (l == 0) sums[get_group_id(0)] = part[0];\n"
  "}\n"
  "__kernel void place(__global cell *c, const int2 step, const uchar tag) {\n"
  "  int x = get_global_id(0), y = get_global_id(1), z = get_global_id(2);\n"
  "  int at = (z * (int)get_global_size(1) + y) * (int)(get_global_size(0) + get_global_offset(0)) + x;\n"
  "  c[at].value += x * step.x + y * step.y; c[at].times += TIMES + tag;\n"
  "}\n"
  "__kernel void both(__global int *a, __global int *b) { int i = get_global_id(0); b[i] = a[i] + 1; }\n"
};

static cl_context context;
static cl_command_queue queue;
static cl_program program;

static void check(cl_int status, const char *what)
{
  if (status == CL_SUCCESS) return;
  fprintf(stderr, "ten_launches: %s: %d\n", what, status);
  exit(1);
}

static cl_kernel kernel_named(const char *name)
{
  cl_int status;
  cl_kernel found = clCreateKernel(program, name, &status);
  check(status, name);
  return found;
}

static void launch(cl_kernel kernel, cl_uint dimensions, const size_t *offset, const size_t *global, const size_t *local)
{
  check(clEnqueueNDRangeKernel(queue, kernel, dimensions, offset, global, local, 0, NULL, NULL), "a launch");
}

static void set_up(void)
{
  cl_platform_id platform;
  cl_device_id device;
  cl_int status;
  check(clGetPlatformIDs(1, &platform, NULL), "the platform");
  check(clGetDeviceIDs(platform, CL_DEVICE_TYPE_ALL, 1, &device, NULL), "the device");
  context = clCreateContext(NULL, 1, &device, NULL, NULL, &status);
  check(status, "the context");
  queue = clCreateCommandQueue(context, device, 0, &status);
  check(status, "the queue");
  program = clCreateProgramWithSource(context, 2, part, NULL, &status);
  check(status, "the program");
  check(clBuildProgram(program, 1, &device, "-cl-std=CL1.2 -D TIMES=3", NULL, NULL), "the build");
}

static void scale(cl_mem a, cl_int factor, cl_uint add)
{
  cl_kernel kernel = kernel_named("scale");
  size_t global = COUNT, local = 16;
  clSetKernelArg(kernel, 0, sizeof a, &a);
  clSetKernelArg(kernel, 1, sizeof factor, &factor);
  clSetKernelArg(kernel, 2, sizeof add, &add);
  launch(kernel, 1, NULL, &global, &local);
  clReleaseKernel(kernel);
}

static void place(cl_mem c, cl_uint dimensions, const size_t *offset, const size_t *global, cl_int x, cl_int y, cl_uchar tag)
{
  cl_kernel kernel = kernel_named("place");
  cl_int2 step = { { x, y } };
  clSetKernelArg(kernel, 0, sizeof c, &c);
  clSetKernelArg(kernel, 1, sizeof step, &step);
  clSetKernelArg(kernel, 2, sizeof tag, &tag);
  launch(kernel, dimensions, offset, global, NULL);
  clReleaseKernel(kernel);
}

int main(void)
{
  cl_int start[COUNT], found[COUNT], status;
  size_t global = COUNT, local = 8, grid[3] = { 4, 4, 2 }, corner[2] = { 1, 2 }, small[2] = { 3, 2 };
  for (int i = 0; i < COUNT; i++) start[i] = i * 7 - 100;
  set_up();
  cl_mem a = clCreateBuffer(context, CL_MEM_READ_WRITE | CL_MEM_COPY_HOST_PTR, sizeof start, start, &status);
  cl_mem b = clCreateBuffer(context, CL_MEM_READ_WRITE, sizeof start, NULL, &status);
  cl_mem sums = clCreateBuffer(context, CL_MEM_READ_WRITE, 8 * sizeof(cl_int), NULL, &status);
  check(status, "a buffer");
  check(clEnqueueWriteBuffer(queue, b, CL_TRUE, 0, sizeof start, start, 0, NULL, NULL), "a write");
  check(clEnqueueWriteBuffer(queue, sums, CL_TRUE, 0, 8 * sizeof(cl_int), start, 0, NULL, NULL), "a write");
  scale(a, -3, 4000000000u);
  scale(b, 5, 1);
  cl_kernel squares = kernel_named("squares"), adds = kernel_named("sums"), both = kernel_named("both");
  clSetKernelArg(squares, 0, sizeof a, &b);
  clSetKernelArg(squares, 1, sizeof b, &a);
  launch(squares, 1, NULL, &global, NULL);
  clSetKernelArg(adds, 0, sizeof a, &a);
  clSetKernelArg(adds, 1, sizeof sums, &sums);
  clSetKernelArg(adds, 2, local * sizeof(cl_int), NULL);
  launch(adds, 1, NULL, &global, &local);
  start[0] = 12345;
  check(clEnqueueWriteBuffer(queue, a, CL_TRUE, 4, 4, start, 0, NULL, NULL), "a write");
  launch(adds, 1, NULL, &global, &local);
  place(b, 3, NULL, grid, 10, -1, 200);
  place(b, 2, corner, small, -7, 1 << 20, 1);
  clSetKernelArg(both, 0, sizeof a, &a);
  clSetKernelArg(both, 1, sizeof a, &a);
  launch(both, 1, NULL, &global, &local);
  clSetKernelArg(both, 1, sizeof b, &b);
  launch(both, 1, NULL, &global, NULL);
  scale(a, 1, 0);
  check(clEnqueueReadBuffer(queue, b, CL_TRUE, 0, sizeof found, found, 0, NULL, NULL), "a read");
  printf("%d\n", found[1]);
  clReleaseMemObject(a);
  clReleaseMemObject(b);
  clReleaseMemObject(sums);
  return 0;
}
