/* record.c: writes each launch that an OpenCL program makes as a folder with the source, a launch file, the buffers as
   they were, and as `expected` the buffers that the launch left. It is loaded in front of the OpenCL library:

       cc -shared -fPIC -O1 -o record.so record.c -ldl -lpthread
       WGCC_RECORD=FOLDER LD_PRELOAD=./record.so PROGRAM ..

   tools/record does both. No header of OpenCL is needed: the few types and numbers that are used stand here. */
#define _GNU_SOURCE
#include <dlfcn.h>
#include <errno.h>
#include <pthread.h>
#include <stdint.h>
#include <stdio.h>
#include <stdlib.h>
#include <string.h>
#include <sys/stat.h>

typedef int32_t cl_int;
typedef uint32_t cl_uint;
typedef uint64_t cl_bitfield;
typedef void *handle;

enum {
  CL_TRUE_ = 1, KERNEL_FUNCTION_NAME = 0x1190, KERNEL_PROGRAM = 0x1194, KERNEL_ARG_NAME = 0x119A,
  KERNEL_COMPILE_WORK_GROUP_SIZE = 0x11B1, MOST_BYTES = 1 << 26, MOST_ARGUMENTS = 256, MOST_OF_GROUP = 1024
};

/* What is known of a program, a kernel and a buffer. */
struct program { handle own; char *source, *options; };
struct argument { int is_set; size_t size; unsigned char *bytes; };
struct kernel { handle own; handle program; char name[256]; struct argument arguments[MOST_ARGUMENTS]; };
struct buffer { handle own; size_t size; };

static pthread_mutex_t lock = PTHREAD_MUTEX_INITIALIZER;
static struct program **programs;
static struct kernel **kernels;
static struct buffer **buffers;
static size_t program_count, kernel_count, buffer_count, launch_count;

/* The function of the OpenCL library behind this one. */
static void *real(const char *name)
{
  void *found = dlsym(RTLD_NEXT, name);
  if (!found) {
    fprintf(stderr, "record: the OpenCL library has no %s\n", name);
    exit(127);
  }
  return found;
}

static void *room(size_t bytes)
{
  void *found = calloc(1, bytes ? bytes : 1);
  if (!found) {
    fprintf(stderr, "record: out of memory\n");
    exit(127);
  }
  return found;
}

/* Adds a thing to one of the three lists. */
static void add(void ***list, size_t *count, void *thing)
{
  *list = realloc(*list, (*count + 1) * sizeof(void *));
  if (!*list) exit(127);
  (*list)[(*count)++] = thing;
}

/* The latest thing of a handle: the library may give a handle again when it was released. */
#define LATEST(list, count, which) \
  for (size_t at = (count); at-- > 0;) if ((list)[at]->own == (which)) return (list)[at]; \
  return NULL

static struct program *program_of(handle which) { LATEST(programs, program_count, which); }
static struct kernel *kernel_of(handle which) { LATEST(kernels, kernel_count, which); }
static struct buffer *buffer_of(handle which) { LATEST(buffers, buffer_count, which); }

handle clCreateProgramWithSource(handle context, cl_uint count, const char **texts, const size_t *lengths,
                                 cl_int *error)
{
  handle (*call)(handle, cl_uint, const char **, const size_t *, cl_int *) = real("clCreateProgramWithSource");
  handle found = call(context, count, texts, lengths, error);
  if (!found) return found;
  size_t total = 0;
  for (cl_uint i = 0; i < count; i++) total += lengths && lengths[i] ? lengths[i] : strlen(texts[i]);
  struct program *made = room(sizeof *made);
  made->own = found;
  made->source = room(total + 1);
  made->options = room(1);
  for (cl_uint i = 0; i < count; i++)
    strncat(made->source, texts[i], lengths && lengths[i] ? lengths[i] : strlen(texts[i]));
  pthread_mutex_lock(&lock);
  add((void ***)&programs, &program_count, made);
  pthread_mutex_unlock(&lock);
  return found;
}

typedef void build_done(handle, void *);

cl_int clBuildProgram(handle program, cl_uint count, const handle *devices, const char *options, build_done *done,
                      void *data)
{
  cl_int (*call)(handle, cl_uint, const handle *, const char *, build_done *, void *) = real("clBuildProgram");
  pthread_mutex_lock(&lock);
  struct program *known = program_of(program);
  if (known) known->options = strdup(options ? options : "");
  pthread_mutex_unlock(&lock);
  static const char more[] = " -cl-kernel-arg-info";
  char *all = room((options ? strlen(options) : 0) + sizeof more);
  strcpy(all, options ? options : "");
  strcat(all, more);
  cl_int found = call(program, count, devices, all, done, data);
  free(all);
  return found;
}

static void add_kernel(handle kernel, handle program, const char *name)
{
  struct kernel *made = room(sizeof *made);
  made->own = kernel;
  made->program = program;
  snprintf(made->name, sizeof made->name, "%s", name);
  pthread_mutex_lock(&lock);
  add((void ***)&kernels, &kernel_count, made);
  pthread_mutex_unlock(&lock);
}

handle clCreateKernel(handle program, const char *name, cl_int *error)
{
  handle (*call)(handle, const char *, cl_int *) = real("clCreateKernel");
  handle found = call(program, name, error);
  if (found) add_kernel(found, program, name);
  return found;
}

cl_int clCreateKernelsInProgram(handle program, cl_uint count, handle *found, cl_uint *number)
{
  cl_int (*call)(handle, cl_uint, handle *, cl_uint *) = real("clCreateKernelsInProgram");
  cl_int (*info)(handle, cl_uint, size_t, void *, size_t *) = real("clGetKernelInfo");
  cl_uint made = 0;
  cl_int status = call(program, count, found, &made);
  if (number) *number = made;
  for (cl_uint i = 0; status == 0 && found && i < made && i < count; i++) {
    char name[256] = "";
    info(found[i], KERNEL_FUNCTION_NAME, sizeof name, name, NULL);
    add_kernel(found[i], program, name);
  }
  return status;
}

cl_int clSetKernelArg(handle kernel, cl_uint index, size_t size, const void *value)
{
  cl_int (*call)(handle, cl_uint, size_t, const void *) = real("clSetKernelArg");
  cl_int status = call(kernel, index, size, value);
  pthread_mutex_lock(&lock);
  struct kernel *known = kernel_of(kernel);
  if (status == 0 && known && index < MOST_ARGUMENTS) {
    struct argument *own = &known->arguments[index];
    free(own->bytes);
    own->is_set = 1;
    own->size = size;
    own->bytes = NULL;
    if (value) {
      own->bytes = room(size);
      memcpy(own->bytes, value, size);
    }
  }
  pthread_mutex_unlock(&lock);
  return status;
}

static void add_buffer(handle which, size_t size)
{
  struct buffer *made = room(sizeof *made);
  made->own = which;
  made->size = size;
  pthread_mutex_lock(&lock);
  add((void ***)&buffers, &buffer_count, made);
  pthread_mutex_unlock(&lock);
}

handle clCreateBuffer(handle context, cl_bitfield flags, size_t size, void *host, cl_int *error)
{
  handle (*call)(handle, cl_bitfield, size_t, void *, cl_int *) = real("clCreateBuffer");
  handle found = call(context, flags, size, host, error);
  if (found) add_buffer(found, size);
  return found;
}

handle clCreateSubBuffer(handle buffer, cl_bitfield flags, cl_uint kind, const void *region, cl_int *error)
{
  handle (*call)(handle, cl_bitfield, cl_uint, const void *, cl_int *) = real("clCreateSubBuffer");
  handle found = call(buffer, flags, kind, region, error);
  if (found) add_buffer(found, ((const size_t *)region)[1]);
  return found;
}

/* One launch while it is written. */
struct launch {
  struct kernel *kernel; cl_uint dimensions; size_t offset[3], global[3], local[3]; char folder[3000];
};

/* Which buffers a launch has: for each argument that is one, the number of the first argument with it. */
struct bound { struct buffer *buffer; char name[80]; unsigned char *before, *after; };

static FILE *file_in(const char *folder, const char *name)
{
  char path[4096];
  snprintf(path, sizeof path, "%s/%s", folder, name);
  FILE *file = fopen(path, "wb");
  if (!file) fprintf(stderr, "record: %s: %s\n", path, strerror(errno));
  return file;
}

static void bytes_in(const char *folder, const char *name, const void *bytes, size_t size)
{
  FILE *file = file_in(folder, name);
  if (!file) return;
  if (fwrite(bytes, 1, size, file) != size) fprintf(stderr, "record: %s/%s is not whole\n", folder, name);
  fclose(file);
}

/* The bytes of a buffer now, or NULL. */
static unsigned char *bytes_of(handle queue, struct buffer *buffer)
{
  cl_int (*call)(handle, handle, cl_uint, size_t, size_t, void *, cl_uint, const handle *, handle *) =
    real("clEnqueueReadBuffer");
  unsigned char *found = room(buffer->size);
  if (call(queue, buffer->own, CL_TRUE_, 0, buffer->size, found, 0, NULL, NULL) == 0) return found;
  free(found);
  return NULL;
}

/* The group sizes of a launch whose host leaves them open: those that the kernel requires, or divisors of the sizes. */
static void choose_local(handle queue, struct launch *launch)
{
  cl_int (*info)(handle, handle, cl_uint, size_t, void *, size_t *) = real("clGetKernelWorkGroupInfo");
  cl_int (*about)(handle, cl_uint, size_t, void *, size_t *) = real("clGetCommandQueueInfo");
  size_t required[3] = { 0, 0, 0 }, left = 64;
  handle device = NULL;
  if (about(queue, 0x1091, sizeof device, &device, NULL) == 0)
    info(launch->kernel->own, device, KERNEL_COMPILE_WORK_GROUP_SIZE, sizeof required, required, NULL);
  for (cl_uint i = 0; i < 3; i++) {
    size_t size = launch->global[i], chosen = 1;
    for (size_t each = 1; each <= left && each <= size; each++) if (size % each == 0) chosen = each;
    launch->local[i] = required[0] ? required[i] : chosen;
    left /= launch->local[i] ? launch->local[i] : 1;
  }
}

/* The name of an argument, or one of its number. */
static void name_argument(struct kernel *kernel, cl_uint index, char *name, size_t size)
{
  cl_int (*info)(handle, cl_uint, cl_uint, size_t, void *, size_t *) = dlsym(RTLD_NEXT, "clGetKernelArgInfo");
  if (!info || info(kernel->own, index, KERNEL_ARG_NAME, size, name, NULL) != 0 || !name[0] || strchr(name, '/'))
    snprintf(name, size, "buffer_%u", (unsigned)index);
}

/* How many arguments of the kernel were set, or -1 where one is missing or a launch cannot be written. */
static int argument_count(struct kernel *kernel)
{
  cl_int (*info)(handle, cl_uint, size_t, void *, size_t *) = real("clGetKernelInfo");
  cl_uint count = 0;
  if (info(kernel->own, 0x1191, sizeof count, &count, NULL) != 0 || count > MOST_ARGUMENTS) return -1;
  for (cl_uint i = 0; i < count; i++) if (!kernel->arguments[i].is_set) return -1;
  return (int)count;
}

/* The buffer that an argument is, or NULL. */
static struct buffer *buffer_argument(struct argument *argument)
{
  handle which;
  if (!argument->bytes || argument->size != sizeof which) return NULL;
  memcpy(&which, argument->bytes, sizeof which);
  return buffer_of(which);
}

static void write_sizes(FILE *file, const char *key, const size_t *sizes, cl_uint dimensions)
{
  fprintf(file, "%s = [", key);
  for (cl_uint i = 0; i < dimensions; i++) fprintf(file, "%s%llu", i ? ", " : "", (unsigned long long)sizes[i]);
  fprintf(file, "]\n");
}

/* A number as an argument: as a signed number of its size, and its bytes as a comment. */
static void write_value(FILE *file, struct argument *argument)
{
  long long value = 0;
  if (argument->size <= sizeof value) {
    memcpy(&value, argument->bytes, argument->size);
    unsigned unused = 64 - 8 * (unsigned)argument->size;
    value = (long long)((unsigned long long)value << unused) >> unused;
  }
  fprintf(file, "value = %lld # bytes ", value);
  for (size_t i = 0; i < argument->size; i++) fprintf(file, "%02x", argument->bytes[i]);
  fputc('\n', file);
}

static void write_launch_file(struct launch *launch, struct bound *bound, int count)
{
  FILE *file = file_in(launch->folder, "k.toml");
  if (!file) return;
  fprintf(file, "format = 3\n");
  for (int i = 0; i < count; i++) {
    if (!bound[i].buffer || !bound[i].before) continue;
    fprintf(file, "\n[[buffer]]\nname = \"%s\"\nbytes = %llu\nload = \"%s.bin\"\nsave = \"%s.out\"\n", bound[i].name,
            (unsigned long long)bound[i].buffer->size, bound[i].name, bound[i].name);
  }
  fprintf(file, "\n[[launch]]\nkernel = \"%s\"\n", launch->kernel->name);
  write_sizes(file, "global", launch->global, launch->dimensions);
  write_sizes(file, "local", launch->local, launch->dimensions);
  write_sizes(file, "offset", launch->offset, launch->dimensions);
  for (int i = 0; i < count; i++) {
    struct argument *argument = &launch->kernel->arguments[i];
    fprintf(file, "[[launch.arg]]\n");
    if (bound[i].buffer) fprintf(file, "buffer = \"%s\"\n", bound[i].name);
    else if (!argument->bytes) fprintf(file, "local = %llu\n", (unsigned long long)argument->size);
    else write_value(file, argument);
  }
  fclose(file);
}

/* Makes the folder of a launch, and writes all but what is expected. */
static void write_before(struct launch *launch, struct bound *bound, int count)
{
  struct program *program = program_of(launch->kernel->program);
  const char *top = getenv("WGCC_RECORD");
  snprintf(launch->folder, sizeof launch->folder, "%s/%03zu_%s", top, ++launch_count, launch->kernel->name);
  char expected[3100];
  snprintf(expected, sizeof expected, "%s/expected", launch->folder);
  mkdir(top, 0777);
  if (mkdir(launch->folder, 0777) || mkdir(expected, 0777))
    fprintf(stderr, "record: %s: %s\n", launch->folder, strerror(errno));
  bytes_in(launch->folder, "k.cl", program->source, strlen(program->source));
  bytes_in(launch->folder, "defines", program->options, strlen(program->options));
  for (int i = 0; i < count; i++) {
    char name[100];
    if (!bound[i].buffer || !bound[i].before) continue;
    snprintf(name, sizeof name, "%s.bin", bound[i].name);
    bytes_in(launch->folder, name, bound[i].before, bound[i].buffer->size);
  }
  write_launch_file(launch, bound, count);
}

static void write_after(handle queue, struct launch *launch, struct bound *bound, int count)
{
  for (int i = 0; i < count; i++) {
    char name[100];
    if (!bound[i].buffer || !bound[i].before) continue;
    bound[i].after = bytes_of(queue, bound[i].buffer);
    if (!bound[i].after) continue;
    snprintf(name, sizeof name, "expected/%s.out", bound[i].name);
    bytes_in(launch->folder, name, bound[i].after, bound[i].buffer->size);
  }
}

/* Finds the buffers of a launch and reads them. A buffer that several arguments name is read at the first of them.
   Returns the number of arguments, or -1 with a line where the launch is not written. */
static int read_buffers(handle queue, struct launch *launch, struct bound *bound)
{
  const char *why = NULL;
  int count = argument_count(launch->kernel);
  if (count < 0) why = "an argument is not known";
  if (!program_of(launch->kernel->program)) why = "its program was not made from a source";
  for (int i = 0; !why && i < count; i++) {
    bound[i].buffer = buffer_argument(&launch->kernel->arguments[i]);
    if (!bound[i].buffer) continue;
    int first = 0;
    while (bound[first].buffer != bound[i].buffer) first++;
    if (first < i) {
      memcpy(bound[i].name, bound[first].name, sizeof bound[i].name);
      continue;
    }
    name_argument(launch->kernel, (cl_uint)i, bound[i].name, sizeof bound[i].name);
    if (bound[i].buffer->size > MOST_BYTES) why = "a buffer has more than 64 MiB";
    else if (!(bound[i].before = bytes_of(queue, bound[i].buffer))) why = "a buffer cannot be read";
  }
  if (launch->local[0] * launch->local[1] * launch->local[2] > MOST_OF_GROUP) why = "a group has more than 1,024 items";
  if (why) fprintf(stderr, "record: a launch of %s is not written: %s\n", launch->kernel->name, why);
  return why ? -1 : count;
}

typedef cl_int enqueue(handle, handle, cl_uint, const size_t *, const size_t *, const size_t *, cl_uint, const handle *,
                       handle *);

static cl_int launch_now(handle queue, struct launch *launch, cl_uint events, const handle *list, handle *event)
{
  enqueue *call = (enqueue *)real("clEnqueueNDRangeKernel");
  cl_int (*finish)(handle) = real("clFinish");
  cl_int (*wait)(cl_uint, const handle *) = real("clWaitForEvents");
  struct bound bound[MOST_ARGUMENTS];
  memset(bound, 0, sizeof bound);
  if (events) wait(events, list);
  finish(queue);
  int count = read_buffers(queue, launch, bound);
  if (count >= 0) write_before(launch, bound, count);
  cl_int status = call(queue, launch->kernel->own, launch->dimensions, launch->offset, launch->global, launch->local,
                       events, list, event);
  finish(queue);
  if (status == 0 && count >= 0) write_after(queue, launch, bound, count);
  for (int i = 0; i < MOST_ARGUMENTS; i++) {
    free(bound[i].before);
    free(bound[i].after);
  }
  return status;
}

cl_int clEnqueueNDRangeKernel(handle queue, handle kernel, cl_uint dimensions, const size_t *offset,
                              const size_t *global, const size_t *local, cl_uint events, const handle *list,
                              handle *event)
{
  enqueue *call = (enqueue *)real("clEnqueueNDRangeKernel");
  pthread_mutex_lock(&lock);
  struct kernel *known = kernel_of(kernel);
  if (!known || !getenv("WGCC_RECORD") || dimensions < 1 || dimensions > 3 || !global) {
    pthread_mutex_unlock(&lock);
    return call(queue, kernel, dimensions, offset, global, local, events, list, event);
  }
  struct launch launch = { known, dimensions, { 0, 0, 0 }, { 1, 1, 1 }, { 1, 1, 1 }, "" };
  for (cl_uint i = 0; i < dimensions; i++) {
    launch.global[i] = global[i];
    if (offset) launch.offset[i] = offset[i];
    if (local) launch.local[i] = local[i];
  }
  if (!local) choose_local(queue, &launch);
  cl_int status = launch_now(queue, &launch, events, list, event);
  pthread_mutex_unlock(&lock);
  return status;
}

cl_int clEnqueueTask(handle queue, handle kernel, cl_uint events, const handle *list, handle *event)
{
  size_t one = 1;
  return clEnqueueNDRangeKernel(queue, kernel, 1, NULL, &one, &one, events, list, event);
}
