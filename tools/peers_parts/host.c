/* host FACTS: makes the launches that the file FACTS tells, on the first device of the first OpenCL platform.

   tools/peers writes the facts, a line each, in this order:
     source FILE                      the kernel source
     options WORDS                    what the compiler is given
     buffer BYTES LOAD SAVE           a buffer; `-` for no file
     launch KERNEL DIMENSIONS GLOBAL LOCAL OFFSET   three sizes each, and behind it the arguments:
     memory NUMBER                    a buffer, by its number from 0
     value HEX                        the bytes of a number
     local BYTES                      local memory
     end                              makes the launch

   It prints the platform, and the seconds that the build and the launches took by the clock. */
#define CL_TARGET_OPENCL_VERSION 120
#include <CL/cl.h>
#include <stdio.h>
#include <stdlib.h>
#include <string.h>
#include <time.h>

#define MOST_BUFFERS 64
#define MOST_LINE 8192

struct buffer {
  size_t bytes;
  char load[512];
  char save[512];
  cl_mem memory;
};

static cl_context context;
static cl_device_id device;
static cl_command_queue queue;
static cl_program program;
static struct buffer buffers[MOST_BUFFERS];
static int buffer_count;

static void must(int fine, const char *what, int code)
{
  if (fine)
    return;
  fprintf(stderr, "host: %s: %d\n", what, code);
  exit(3);
}

static double now(void)
{
  struct timespec at;
  clock_gettime(CLOCK_MONOTONIC, &at);
  return at.tv_sec + at.tv_nsec / 1e9;
}

static char *file_text(const char *name, size_t *count)
{
  FILE *file = fopen(name, "rb");
  must(file != NULL, name, 0);
  fseek(file, 0, SEEK_END);
  *count = ftell(file);
  rewind(file);
  char *text = calloc(*count + 1, 1);
  must(fread(text, 1, *count, file) == *count, "read", 0);
  fclose(file);
  return text;
}

static void open_device(void)
{
  cl_platform_id platform;
  char name[256] = "";
  cl_int code = clGetPlatformIDs(1, &platform, NULL);
  must(code == CL_SUCCESS, "no platform", code);
  clGetPlatformInfo(platform, CL_PLATFORM_NAME, sizeof name, name, NULL);
  printf("platform %s\n", name);
  code = clGetDeviceIDs(platform, CL_DEVICE_TYPE_ALL, 1, &device, NULL);
  must(code == CL_SUCCESS, "no device", code);
  context = clCreateContext(NULL, 1, &device, NULL, NULL, &code);
  must(code == CL_SUCCESS, "context", code);
  queue = clCreateCommandQueue(context, device, 0, &code);
  must(code == CL_SUCCESS, "queue", code);
}

static void build(const char *source, const char *options)
{
  size_t count;
  cl_int code;
  char *text = file_text(source, &count);
  program = clCreateProgramWithSource(context, 1, (const char **)&text, &count, &code);
  must(code == CL_SUCCESS, "program", code);
  code = clBuildProgram(program, 1, &device, options, NULL, NULL);
  if (code != CL_SUCCESS) {
    static char log[65536];
    clGetProgramBuildInfo(program, device, CL_PROGRAM_BUILD_LOG, sizeof log - 1, log, NULL);
    fprintf(stderr, "%s\n", log);
  }
  must(code == CL_SUCCESS, "build", code);
  free(text);
}

static void make_buffer(struct buffer *made)
{
  cl_int code;
  char *bytes = calloc(made->bytes + 1, 1);
  if (strcmp(made->load, "-") != 0) {
    size_t count;
    char *text = file_text(made->load, &count);
    memcpy(bytes, text, count < made->bytes ? count : made->bytes);
    free(text);
  }
  size_t room = made->bytes ? made->bytes : 1;
  made->memory = clCreateBuffer(context, CL_MEM_READ_WRITE | CL_MEM_COPY_HOST_PTR, room, bytes, &code);
  must(code == CL_SUCCESS, "buffer", code);
  free(bytes);
}

static void save_buffer(struct buffer *saved)
{
  if (strcmp(saved->save, "-") == 0)
    return;
  char *bytes = calloc(saved->bytes + 1, 1);
  if (saved->bytes) {
    cl_int code = clEnqueueReadBuffer(queue, saved->memory, CL_TRUE, 0, saved->bytes, bytes, 0, NULL, NULL);
    must(code == CL_SUCCESS, "read buffer", code);
  }
  FILE *file = fopen(saved->save, "wb");
  must(file != NULL, saved->save, 0);
  fwrite(bytes, 1, saved->bytes, file);
  fclose(file);
  free(bytes);
}

static void set_value(cl_kernel kernel, int at, const char *digits)
{
  unsigned char bytes[8];
  size_t count = strlen(digits) / 2;
  for (size_t i = 0; i < count && i < sizeof bytes; i++) {
    unsigned one;
    sscanf(digits + 2 * i, "%2x", &one);
    bytes[i] = one;
  }
  must(clSetKernelArg(kernel, at, count, bytes) == CL_SUCCESS, "value", at);
}

static void set_argument(cl_kernel kernel, int at, const char *line)
{
  char text[64];
  size_t number;
  if (sscanf(line, "memory %zu", &number) == 1)
    must(clSetKernelArg(kernel, at, sizeof(cl_mem), &buffers[number].memory) == CL_SUCCESS, "memory", at);
  else if (sscanf(line, "local %zu", &number) == 1)
    must(clSetKernelArg(kernel, at, number ? number : 1, NULL) == CL_SUCCESS, "local", at);
  else if (sscanf(line, "value %63s", text) == 1)
    set_value(kernel, at, text);
}

static void launch(FILE *facts, const char *head)
{
  char name[256], line[MOST_LINE];
  unsigned dimensions;
  size_t whole[3], part[3], offset[3];
  cl_int code;
  int at = 0;
  sscanf(head, "launch %255s %u %zu %zu %zu %zu %zu %zu %zu %zu %zu", name, &dimensions, whole, whole + 1, whole + 2,
         part, part + 1, part + 2, offset, offset + 1, offset + 2);
  cl_kernel kernel = clCreateKernel(program, name, &code);
  must(code == CL_SUCCESS, "kernel", code);
  while (fgets(line, sizeof line, facts) && strncmp(line, "end", 3) != 0)
    set_argument(kernel, at++, line);
  code = clEnqueueNDRangeKernel(queue, kernel, dimensions, offset, whole, part, 0, NULL, NULL);
  must(code == CL_SUCCESS, "launch", code);
  code = clFinish(queue);
  must(code == CL_SUCCESS, "finish", code);
  clReleaseKernel(kernel);
}

int main(int count, char **words)
{
  static char line[MOST_LINE], source[512], options[MOST_LINE];
  FILE *facts = count == 2 ? fopen(words[1], "r") : NULL;
  must(facts != NULL, "usage: host FACTS", 0);
  open_device();
  double begun = now(), built = begun;
  while (fgets(line, sizeof line, facts)) {
    struct buffer *next = &buffers[buffer_count];
    line[strcspn(line, "\n")] = 0;
    if (sscanf(line, "source %511s", source) == 1)
      continue;
    if (strncmp(line, "options", 7) == 0) {
      strcpy(options, line + 7);
      build(source, options);
      built = now();
    } else if (sscanf(line, "buffer %zu %511s %511s", &next->bytes, next->load, next->save) == 3) {
      make_buffer(next);
      buffer_count++;
    } else if (strncmp(line, "launch", 6) == 0)
      launch(facts, line);
  }
  printf("seconds %.6f %.6f\n", built - begun, now() - built);
  for (int i = 0; i < buffer_count; i++)
    save_buffer(&buffers[i]);
  return 0;
}
