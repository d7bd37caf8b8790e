/* Drives bttv's own code in user space: commands on standard input, a line of JSON for each `dump` on standard output.
 *
 *   new NORM SEED                      a fresh device of a norm (0 PAL, 1 NTSC); lists lie at drawn bus addresses
 *   option NAME N                      a module option: vcr_hack, combfilter
 *   memory I ADDRESS:LENGTH ..         scatter list I
 *   format FOURCC WIDTH HEIGHT FIELD   VIDIOC_S_FMT; crop LEFT TOP WIDTH HEIGHT: VIDIOC_S_SELECTION
 *   vbi START COUNT START COUNT        VIDIOC_S_FMT for VBI lines
 *   buffer K video|vbi I SIZE          buffer K over scatter list I
 *   prepare K, queue K                 both are done by VIDIOC_QBUF
 *   stream video|vbi                   VIDIOC_STREAMON
 *   interrupt STATUS                   INT_STAT has this value, and the handler runs
 *   fail N                             the N-th list from now on finds no memory
 *   overlay FOURCC BASE PITCH LEFT TOP WIDTH HEIGHT FIELD COUNT [X Y WIDTH HEIGHT] ..   6.1: a window, into buffer 0
 *   dump                               buffers, what the driver accepted, and how it died if it did
 *
 * 6.1 has no queues here: `format` sets what it says, `prepare` makes the lists, and `interrupt` hooks those of buffer 0.
 */
#include "stubs.h"
#include <setjmp.h>
#include <signal.h>
#include <ucontext.h>
#include "bttv-risc.c"
#ifdef WHOLE_DRIVER
#include "bttv-vbi.c"
#include "bttv-driver.c"
#else
#include "tables.c" /* cut from bttv-driver.c while building: formats and norms */
#endif

unsigned long jiffies;
int warnings;
unsigned char registers[0x1000];
char vb2_dma_sg_memops;

static struct bttv device;
static struct pci_dev card;
static struct bttv_buffer buffers[16];
static struct { struct scatterlist *pieces; int count; struct sg_table table; } memories[16];
static int result;

/* how the driver died: what happened, in which command, and the address of the code */

static sigjmp_buf out;
static volatile int at_work;
static char death[80], command[32];
static unsigned long death_at;

static void die(const char *what, unsigned long at)
{
	if (!at_work) abort();
	snprintf(death, sizeof death, "%s", what);
	death_at = at;
	siglongjmp(out, 1);
}
void give_up(const char *what) { die(what, (unsigned long)__builtin_return_address(0) - 1); }
static void on_fault(int number, siginfo_t *info, void *context)
{
	unsigned long at = 0;
#ifdef __x86_64__
	at = ((ucontext_t *)context)->uc_mcontext.gregs[REG_RIP];
#endif
	die((unsigned long)info->si_addr < 4096 ? "NULL pointer" : "wild pointer", at);
}

/* lists in memory of their own, with room behind each that shows what is written beyond it */

#define ROOM 65536
static struct list { u32 *words; u32 address; unsigned size; int is_live; } lists[64];
static int list_count, fail_at;
static u32 drawn;

static u32 draw_address(void)
{
	drawn = drawn * 1664525u + 1013904223u;
	return 0x10000000u + (drawn >> 8) % 0x2000 * 0x10000u;
}
static int is_taken(u32 address)
{
	for (int i = 0; i < list_count; i++)
		if (address == lists[i].address) return 1;
	return 0;
}
void *dma_alloc_coherent(struct device *d, size_t size, dma_addr_t *address, gfp_t flags)
{
	struct list *list = &lists[list_count];
	if ((fail_at && !--fail_at) || list_count == ARRAY_SIZE(lists)) return NULL;
	do list->address = draw_address(); while (is_taken(list->address));
	list->words = calloc(1, size + ROOM);
	memset((char *)list->words + size, 0xa5, ROOM);
	list->size = size; list->is_live = 1; list_count++;
	*address = list->address;
	return list->words;
}
void dma_free_coherent(struct device *d, size_t size, void *words, dma_addr_t address)
{
	for (int i = 0; i < list_count; i++)
		if (lists[i].address == address) lists[i].is_live = 0;
}
static unsigned beyond(const struct list *list)
{
	unsigned count = ROOM;
	while (count && ((unsigned char *)list->words)[list->size + count - 1] == 0xa5) count--;
	return count;
}

/* what the two kernels have differently */

static const struct bttv_format *format_of(const char *fourcc)
{
	for (int i = 0; i < ARRAY_SIZE(formats); i++)
		if (!memcmp(&formats[i].fourcc, fourcc, 4)) return &formats[i];
	fprintf(stderr, "no format %s\n", fourcc);
	exit(2);
}

#ifdef WHOLE_DRIVER
struct tvcard bttv_tvcards[1];
static struct file file;
static struct vb2_buffer *queued(int k) { return &buffers[k].vbuf.vb2_buf; }
static struct vb2_queue *queue_of(const char *name) { return !strcmp(name, "vbi") ? &device.vbiq : &device.capq; }
void vb2_buffer_done(struct vb2_buffer *b, enum vb2_buffer_state state) {}

static void fresh(int norm) /* as bttv_probe leaves the device */
{
	device.new_input = UNSET; device.dig = 99;
	device.tvnorm = norm;
	device.fmt = format_of("BGR3"); device.width = 320; device.height = 240; device.field = V4L2_FIELD_INTERLACED;
	INIT_LIST_HEAD(&device.vcapture);
	bttv_vbi_fmt_reset(&device.vbi_fmt, norm);
	device.vbi_count[0] = device.vbi_count[1] = VBI_DEFLINES;
	device.capq.ops = &bttv_video_qops; device.vbiq.ops = &bttv_vbi_qops;
	device.capq.drv_priv = device.vbiq.drv_priv = &device;
	bttv_crop_reset(&device.crop[0], norm);
	device.crop[1] = device.crop[0];
	disclaim_vbi_lines(&device);
	disclaim_video_lines(&device);
	file.private_data = &device;
}
static void set_format(const char *fourcc, int width, int height, int field)
{
	struct v4l2_format f = {.type = V4L2_BUF_TYPE_VIDEO_CAPTURE};
	f.fmt.pix.pixelformat = format_of(fourcc)->fourcc;
	f.fmt.pix.width = width; f.fmt.pix.height = height; f.fmt.pix.field = field;
	result = bttv_s_fmt_vid_cap(&file, NULL, &f);
}
static void set_crop(const int *n)
{
	struct v4l2_selection s = {.type = V4L2_BUF_TYPE_VIDEO_CAPTURE, .target = V4L2_SEL_TGT_CROP, .r = {n[0], n[1], n[2], n[3]}};
	result = bttv_s_selection(&file, NULL, &s);
}
static void set_vbi(const int *n)
{
	struct v4l2_format f = {.type = V4L2_BUF_TYPE_VBI_CAPTURE};
	f.fmt.vbi = device.vbi_fmt.fmt;
	for (int i = 0; i < 2; i++) { f.fmt.vbi.start[i] = n[2 * i]; f.fmt.vbi.count[i] = n[2 * i + 1]; }
	result = bttv_s_fmt_vbi_cap(&file, NULL, &f);
}
static void set_buffer(int k, const char *kind, int memory, unsigned long size)
{
	queued(k)->vb2_queue = queue_of(kind);
	queued(k)->pieces = &memories[memory].table;
	queued(k)->plane_size = size;
}
static void prepare(int k) { result = queued(k)->vb2_queue->ops->buf_prepare(queued(k)); }
static void queue(int k) { queued(k)->vb2_queue->ops->buf_queue(queued(k)); }
static void stream(const char *kind)
{
	queue_of(kind)->streaming = 1;
	result = queue_of(kind)->ops->start_streaming(queue_of(kind), 2);
}
static void interrupt(u32 status)
{
	*(u32 *)(registers + BT848_INT_STAT) = status;
	bttv_irq(0, &device);
}
static void overlay(const char *fourcc, const long *n, char *rest) { exit(2); }
#define WIDTH device.width
#define HEIGHT device.height
#define FIELD device.field
#define FORMAT device.fmt
#else
unsigned bttv_debug;
const char *v4l2_field_names[16];
static const struct bttv_format *format;
static int width, height, field;

static void fresh(int norm)
{
	device.dig = 99; device.tvnorm = norm;
	device.crop[0].rect = bttv_tvnorms[norm].cropcap.defrect;
}
static void set_format(const char *fourcc, int w, int h, int f) { format = format_of(fourcc); width = w; height = h; field = f; }
static void set_crop(const int *n) { exit(2); }
static void set_vbi(const int *n) { exit(2); }
static void set_buffer(int k, const char *kind, int memory, unsigned long size) { buffers[k].vb.pieces = memories[memory].pieces; }
static void prepare(int k)
{
	struct bttv_buffer *b = &buffers[k];
	b->fmt = format; b->vb.width = width; b->vb.height = height; b->vb.field = field;
	b->crop = device.crop[0].rect; b->tvnorm = device.tvnorm;
	result = bttv_buffer_risc(&device, b);
}
static void queue(int k) {}
static void stream(const char *kind) {}
static void interrupt(u32 status)
{
	struct bttv_buffer_set set = {.frame_irq = 1};
	if (field != V4L2_FIELD_BOTTOM) set.top = &buffers[0];
	if (field != V4L2_FIELD_TOP) set.bottom = &buffers[0];
	result = bttv_buffer_activate_video(&device, &set);
}
static void overlay(const char *fourcc, const long *n, char *rest) /* the window and clips as the driver takes them over */
{
	static struct v4l2_clip clips[64];
	struct bttv_overlay window = {.w = {n[2], n[3], n[4], n[5]}, .field = n[6], .nclips = n[7], .clips = clips, .tvnorm = device.tvnorm};
	int mask;
	set_format(fourcc, n[4], n[5], n[6]);
	mask = format->depth == 16 ? 1 : format->depth == 32 ? 0 : 3;
	device.fbuf.base = (void *)n[0]; device.fbuf.fmt.bytesperline = n[1];
	for (int i = 0; i < n[7]; i++) {
		clips[i].c.left = strtol(rest, &rest, 0); clips[i].c.top = strtol(rest, &rest, 0);
		clips[i].c.width = strtol(rest, &rest, 0); clips[i].c.height = strtol(rest, &rest, 0);
	}
	btcx_sort_clips(clips, window.nclips);
	if (mask) btcx_align(&window.w, clips, window.nclips, mask);
	buffers[0].crop = device.crop[0].rect;
	result = bttv_overlay_risc(&device, &window, format, &buffers[0]);
}
#define WIDTH width
#define HEIGHT height
#define FIELD field
#define FORMAT format
#endif

/* commands */

static void new_device(int norm, u32 seed)
{
	for (int i = 0; i < list_count; i++) free(lists[i].words);
	list_count = warnings = fail_at = result = death[0] = 0;
	drawn = seed;
	memset(&device, 0, sizeof device); memset(buffers, 0, sizeof buffers); memset(registers, 0, sizeof registers);
	device.c.pci = &card; device.bt848_mmio = registers;
	INIT_LIST_HEAD(&device.capture);
	bttv_risc_init_main(&device);
	fresh(norm);
}
static void set_memory(int i, char *rest)
{
	int n = 0;
	for (char *p = rest; *p; p++) n += *p == ':';
	free(memories[i].pieces);
	memories[i].pieces = calloc(n, sizeof(struct scatterlist));
	for (int k = 0; k < n; k++) {
		memories[i].pieces[k].address = strtoul(rest, &rest, 0);
		memories[i].pieces[k].length = strtoul(rest + 1, &rest, 0);
		memories[i].pieces[k].is_last = k == n - 1;
	}
	memories[i].table.sgl = memories[i].pieces;
	memories[i].table.nents = memories[i].table.orig_nents = n;
}

/* The name of a list, and the words of it that are in use: up to its closing JUMP, which the driver knows once it is made. */
static unsigned words_of(const struct list *list, char *name)
{
	*name = 0;
	if ((void *)device.main.cpu == list->words) { strcpy(name, "main"); return 16; }
	for (int k = 0; k < ARRAY_SIZE(buffers); k++) {
		struct btcx_riscmem *of = NULL;
		if ((void *)buffers[k].top.cpu == list->words) { of = &buffers[k].top; sprintf(name, "%d.top", k); }
		if ((void *)buffers[k].bottom.cpu == list->words) { of = &buffers[k].bottom; sprintf(name, "%d.bottom", k); }
		if (of && of->jmp) return (u32 *)of->jmp - list->words + 2;
	}
	return 0;
}
static void dump(void)
{
	int count = 0;
	char name[16];
	printf("{\"result\": %d, \"death\": \"%s\", \"death_at\": %lu, \"command\": \"%s\", \"warnings\": %d, \"lists\": [", result, death,
	       death_at, command, warnings);
	for (int i = 0; i < list_count; i++) {
		unsigned words = words_of(&lists[i], name);
		if (!lists[i].is_live || !*name) continue;
		printf("%s{\"name\": \"%s\", \"address\": %u, \"size\": %u, \"beyond\": %u, \"words\": [", count++ ? ", " : "", name,
		       lists[i].address, lists[i].size, beyond(&lists[i]));
		for (unsigned k = 0; k < words; k++) printf("%s%u", k ? ", " : "", lists[i].words[k]);
		printf("]}");
	}
	printf("]");
	if (FORMAT) printf(", \"format\": \"%.4s\", \"width\": %d, \"height\": %d, \"field\": %d, \"depth\": %d", (char *)&FORMAT->fourcc,
			   (int)WIDTH, (int)HEIGHT, (int)FIELD, FORMAT->depth);
#ifdef WHOLE_DRIVER
	printf(", \"vbi\": [%d, %d, %d, %d]", device.vbi_fmt.fmt.start[0] - device.vbi_fmt.tvnorm->vbistart[0],
	       device.vbi_fmt.fmt.count[0], device.vbi_fmt.fmt.start[1] - device.vbi_fmt.tvnorm->vbistart[1], device.vbi_fmt.fmt.count[1]);
#endif
	printf("}\n");
	fflush(stdout);
}
static void obey(char *rest)
{
	char word[8] = "", *end = rest;
	int is_named = !strcmp(command, "format") || !strcmp(command, "overlay") || !strcmp(command, "stream");
	long n[8];
	int numbers[8];
	if (!strcmp(command, "option")) {
		sscanf(rest, " vcr_hack %d", &device.opt_vcr_hack);
		sscanf(rest, " combfilter %d", &device.opt_combfilter);
		return;
	}
	if (!strcmp(command, "buffer")) {
		unsigned long size;
		sscanf(rest, "%d %7s %d %lu", &numbers[0], word, &numbers[1], &size);
		set_buffer(numbers[0], word, numbers[1], size);
		return;
	}
	if (is_named) { int at; sscanf(rest, "%7s%n", word, &at); end = rest + at; }
	for (int i = 0; i < 8; i++) numbers[i] = n[i] = strtol(end, &end, 0);
	if (!strcmp(command, "format")) set_format(word, n[0], n[1], n[2]);
	else if (!strcmp(command, "overlay")) overlay(word, n, end);
	else if (!strcmp(command, "stream")) stream(word);
	else if (!strcmp(command, "crop")) set_crop(numbers);
	else if (!strcmp(command, "vbi")) set_vbi(numbers);
	else if (!strcmp(command, "prepare")) prepare(n[0]);
	else if (!strcmp(command, "queue")) queue(n[0]);
	else if (!strcmp(command, "interrupt")) interrupt(n[0]);
	else if (!strcmp(command, "fail")) fail_at = n[0];
	else { fprintf(stderr, "no command %s\n", command); exit(2); }
}
int main(void)
{
	static char line[1 << 20];
	struct sigaction act = {.sa_sigaction = on_fault, .sa_flags = SA_SIGINFO | SA_NODEFER};
	sigaction(SIGSEGV, &act, NULL);
	while (fgets(line, sizeof line, stdin)) {
		char word[32], *rest = line;
		int at;
		if (sscanf(line, "%31s%n", word, &at) != 1) continue;
		rest = line + at;
		if (!strcmp(word, "dump")) dump();
		else if (!strcmp(word, "new")) { int norm = strtol(rest, &rest, 0); new_device(norm, strtoul(rest, &rest, 0)); }
		else if (!strcmp(word, "memory")) { int i = strtol(rest, &rest, 0); set_memory(i, rest); }
		else if (!death[0]) {
			strcpy(command, word);
			at_work = 1;
			if (!sigsetjmp(out, 1)) obey(rest);
			at_work = 0;
		}
	}
	return 0;
}
