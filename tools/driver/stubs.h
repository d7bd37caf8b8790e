/* Stand-ins for the kernel's own headers, as far as the bttv driver's files touch them. No kernel text.
 *
 * The driver is compiled in user space with a header of each name that it includes leading here (harness.py). Most of it needs
 * no more than a shape; what matters is memory that the chip sees, scatter lists, registers and the queues of buffers.
 */
#ifndef STUBS_H
#define STUBS_H
#define _GNU_SOURCE
#define __KERNEL__ 1
#include <errno.h>
#include <fcntl.h>
#include <stddef.h>
#include <stdint.h>
#include <stdio.h>
#include <stdlib.h>
#include <string.h>
#include <strings.h>
#include <sys/types.h>
#include <linux/types.h>
#undef __KERNEL__
#include <linux/videodev2.h> /* the system's: formats, fields, rectangles, as an application sees them */
#define __KERNEL__ 1

typedef uint8_t u8; typedef uint16_t u16; typedef uint32_t u32; typedef uint64_t u64;
typedef int8_t s8; typedef int16_t s16; typedef int32_t s32; typedef int64_t s64;
typedef uint64_t dma_addr_t, resource_size_t; typedef int64_t ktime_t; typedef unsigned gfp_t; typedef int irqreturn_t;
typedef _Bool bool;
#ifndef __poll_t
#define __poll_t unsigned
#endif
#define true 1
#define false 0
#define PAGE_SIZE 4096UL
#define PAGE_SHIFT 12
#define PAGE_MASK (~(PAGE_SIZE - 1))
#define PAGE_ALIGN(x) (((x) + PAGE_SIZE - 1) & PAGE_MASK)
#define ARRAY_SIZE(a) (sizeof(a) / sizeof((a)[0]))
#define container_of(p, t, m) ((t *)((char *)(p) - offsetof(t, m)))
#define container_of_const container_of
#define BIT(n) (1UL << (n))
#define DMA_BIT_MASK(n) ((1ULL << (n)) - 1)
#define min(a, b) ({ __typeof__(a) _a = (a); __typeof__(b) _b = (b); _a < _b ? _a : _b; })
#define max(a, b) ({ __typeof__(a) _a = (a); __typeof__(b) _b = (b); _a > _b ? _a : _b; })
#define min_t(t, a, b) min((t)(a), (t)(b))
#define max_t(t, a, b) max((t)(a), (t)(b))
#define clamp(v, l, h) min(max(v, l), h)
#define clamp_t(t, v, l, h) clamp((t)(v), (t)(l), (t)(h))
#define swap(a, b) do { __typeof__(a) _t = (a); (a) = (b); (b) = _t; } while (0)
#define cpu_to_le32(x) ((__le32)(x))
#define le32_to_cpu(x) ((u32)(x))
#define lower_32_bits(x) ((u32)(x))
#define fallthrough do {} while (0)
#define __iomem
#define __user
#define __init
#define __exit
#define __maybe_unused __attribute__((unused))

/* what is watched: the driver's own warnings, and where it gives up */
extern int warnings;
void give_up(const char *);
#define WARN_ON(c) ({ int _c = !!(c); warnings += _c; _c; })
#define BUG_ON(c) do { if (c) give_up("BUG"); } while (0)
#define BUG() give_up("BUG")

/* what is printed is dropped */
#define pr_debug(...) do {} while (0)
#define pr_info pr_debug
#define pr_cont pr_debug
#define pr_warn pr_debug
#define pr_err pr_debug
#define pr_notice pr_debug
#define printk pr_debug
#define dump_stack pr_debug
#define KERN_DEBUG

/* memory that the chip sees, at bus addresses, and scatter lists */
#define GFP_KERNEL 0
#define __GFP_DMA32 0
struct device { void *driver_data; struct device *parent; };
void *dma_alloc_coherent(struct device *, size_t, dma_addr_t *, gfp_t);
void dma_free_coherent(struct device *, size_t, void *, dma_addr_t);
struct scatterlist { dma_addr_t address; unsigned length; int is_last; };
struct sg_table { struct scatterlist *sgl; unsigned nents, orig_nents; };
#define sg_dma_address(s) ((s)->address)
#define sg_dma_len(s) ((s)->length)
static inline struct scatterlist *sg_next(struct scatterlist *s) { return s->is_last ? NULL : s + 1; }
#define kzalloc(n, f) calloc(1, n)
#define kmalloc(n, f) malloc(n)
#define kmalloc_array(n, s, f) calloc((n) + 1, s)
#define kfree(p) free((void *)(p))
#define strscpy(d, s, n) snprintf(d, n, "%s", s)

/* the chip's registers: an array; a 1 that is written to INT_STAT clears a bit */
extern unsigned char registers[];
static inline u32 readl(volatile void *a) { return *(volatile u32 *)a; }
static inline void writel(u32 v, volatile void *a)
{ *(volatile u32 *)a = (unsigned char *)a == registers + 0x100 ? readl(a) & ~v : v; }
#define ioremap(a, n) calloc(1, n)
#define iounmap(a) do {} while (0)

/* lists of buffers */
struct list_head { struct list_head *next, *prev; };
#define list_entry(p, t, m) container_of(p, t, m)
static inline void INIT_LIST_HEAD(struct list_head *h) { h->next = h->prev = h; }
static inline int list_empty(const struct list_head *h) { return h->next == h; }
static inline void list_add_tail(struct list_head *n, struct list_head *h)
{ n->prev = h->prev; n->next = h; h->prev->next = n; h->prev = n; }
static inline void list_del(struct list_head *n) { n->next->prev = n->prev; n->prev->next = n->next; }

/* one thread, and time stands still */
typedef struct { int x; } spinlock_t, wait_queue_head_t;
struct mutex { int x; };
struct work_struct { int x; };
struct timer_list { int armed; };
extern unsigned long jiffies;
#define HZ 100
#define msecs_to_jiffies(x) (x)
#define spin_lock(l) do {} while (0)
#define spin_unlock spin_lock
#define spin_lock_init spin_lock
#define mutex_init spin_lock
#define mutex_lock spin_lock
#define mutex_unlock spin_lock
#define init_waitqueue_head spin_lock
#define wake_up spin_lock
#define msleep spin_lock
#define mdelay spin_lock
#define udelay spin_lock
#define spin_lock_irqsave(l, f) ((void)(f))
#define spin_unlock_irqrestore(l, f) do {} while (0)
#define schedule() do {} while (0)
#define timer_setup(a, b, c) ((void)(b))
#define from_timer(v, t, m) container_of(t, __typeof__(*v), m)
#define mod_timer(t, x) ((void)((t)->armed = 1))
#define timer_delete(t) ((void)((t)->armed = 0))
#define del_timer timer_delete
#define del_timer_sync timer_delete
#define timer_delete_sync timer_delete
static inline u64 ktime_get_ns(void) { return 1; }

/* modules and devices */
#define KBUILD_MODNAME "bttv"
#define THIS_MODULE NULL
#define module_param(...)
#define module_param_array(...)
#define MODULE_PARM_DESC(...)
#define MODULE_DESCRIPTION(...)
#define MODULE_AUTHOR(...)
#define MODULE_LICENSE(...)
#define MODULE_VERSION(...)
#define MODULE_DEVICE_TABLE(...)
#define EXPORT_SYMBOL(x)
#define module_init(x) void *kept_##x = (void *)x;
#define module_exit(x) void *kept_##x = (void *)x;
#define IRQ_NONE 0
#define IRQ_RETVAL(x) (x)
#define IRQF_SHARED 0
#define DEVICE_ATTR_RO(n) struct device_attribute dev_attr_##n
#define SIMPLE_DEV_PM_OPS(n, s, r) void *n[2] = {(void *)s, (void *)r}
#define PCI_VDEVICE(v, d) 0x109e, (d), 0, 0
#define PCI_DEVICE_ID_BROOKTREE_848 0
#define PCI_DEVICE_ID_BROOKTREE_849 0
#define PCI_DEVICE_ID_BROOKTREE_878 0
#define PCI_DEVICE_ID_BROOKTREE_879 0
#define PCI_DEVICE_ID_FUSION879 0
#define PCI_LATENCY_TIMER 0
#define PCI_COMMAND 0
#define PCI_D0 0
#define to_pci_dev(d) container_of(d, struct pci_dev, dev)
struct device_attribute { int x; };
struct device_driver { const char *name; void *bus, *owner, *pm; };
struct bus_type { const char *name; };
struct pci_device_id { u32 vendor, device, subvendor, subdevice; unsigned long driver_data; };
struct pci_driver { const char *name; const void *id_table; void *probe, *remove; struct { const void *pm; } driver; };
struct pci_dev {
	struct device dev; unsigned irq; u16 device, vendor, subsystem_device, subsystem_vendor; u8 revision; void *bus;
};

/* tuner, sound, remote control */
struct input_dev; struct rc_dev; struct inode;
struct i2c_adapter { struct device dev; };
struct i2c_algo_bit_data { int x; };
struct i2c_client { int x; };
struct IR_i2c_init_data { int x; };
struct tuner_setup { int x; };
struct snd_tea575x { unsigned freq, private_data; };
typedef struct poll_table_struct poll_table;
struct file { void *private_data; unsigned f_flags; };
struct saa6588_command {
	unsigned block_count; bool nonblocking; int result; unsigned char *buffer; unsigned poll_mask; struct file *instance;
	poll_table *event_list;
};
enum { TUNER_ABSENT = 4, TVAUDIO_INPUT_TUNER = 0, TVAUDIO_INPUT_RADIO, TVAUDIO_INPUT_EXTERN, TVAUDIO_INPUT_INTERN };
enum { MSP_INPUT_DEFAULT, MSP_OUTPUT_DEFAULT, MSP_IN_SCART1, MSP_IN_SCART2, MSP_IN_TUNER1, MSP_IN_TUNER2, MSP_DSP_IN_SCART,
	MSP_DSP_IN_TUNER };
#define MSP_INPUT(a, b, c, d) 0

/* video devices and controls */
struct v4l2_ctrl_handler { int error; };
struct v4l2_ctrl { u32 id; s32 val; struct v4l2_ctrl_handler *handler; };
struct v4l2_ctrl_ops { int (*s_ctrl)(struct v4l2_ctrl *); };
struct v4l2_ctrl_config {
	const struct v4l2_ctrl_ops *ops; u32 id; const char *name; int type; s64 min, max; u64 step; s64 def;
};
struct v4l2_subdev { struct v4l2_ctrl_handler *ctrl_handler; };
struct v4l2_device { char name[36]; struct v4l2_ctrl_handler *ctrl_handler; };
struct v4l2_fh { struct list_head list; void *vdev; };
struct v4l2_file_operations { void *owner, *open, *release, *unlocked_ioctl, *read, *mmap, *poll; };
struct v4l2_ioctl_ops {
	void *vidioc_querycap, *vidioc_enum_fmt_vid_cap, *vidioc_g_fmt_vid_cap, *vidioc_try_fmt_vid_cap, *vidioc_s_fmt_vid_cap,
	*vidioc_g_fmt_vbi_cap, *vidioc_try_fmt_vbi_cap, *vidioc_s_fmt_vbi_cap, *vidioc_g_pixelaspect, *vidioc_reqbufs,
	*vidioc_create_bufs, *vidioc_querybuf, *vidioc_qbuf, *vidioc_dqbuf, *vidioc_streamon, *vidioc_streamoff, *vidioc_s_std,
	*vidioc_g_std, *vidioc_enum_input, *vidioc_g_input, *vidioc_s_input, *vidioc_g_tuner, *vidioc_s_tuner,
	*vidioc_g_selection, *vidioc_s_selection, *vidioc_g_parm, *vidioc_g_frequency, *vidioc_s_frequency, *vidioc_log_status,
	*vidioc_querystd, *vidioc_subscribe_event, *vidioc_unsubscribe_event, *vidioc_s_hw_freq_seek, *vidioc_enum_freq_bands,
	*vidioc_g_register, *vidioc_s_register;
};
struct vb2_queue;
struct video_device {
	struct device dev; const void *fops, *ioctl_ops; u64 tvnorms; u32 device_caps, index; struct v4l2_device *v4l2_dev;
	void *release, *data; char name[64]; struct vb2_queue *queue; struct v4l2_ctrl_handler *ctrl_handler;
};
#define to_video_device(d) container_of(d, struct video_device, dev)
#define video_devdata(f) ((struct video_device *)NULL)
#define video_device_node_name(v) "video"
static inline void *video_get_drvdata(struct video_device *v) { return v->data; }
static inline void video_set_drvdata(struct video_device *v, void *d) { v->data = d; }
static inline void *video_drvdata(struct file *f) { return f->private_data; }
#define v4l2_device_call_all(...) do {} while (0)
#define v4l2_device_call_until_err(...) 0
#define v4l2_subdev_call(...) 0
#define v4l2_disable_ioctl(...) do {} while (0)
enum { VFL_TYPE_VIDEO, VFL_TYPE_VBI, VFL_TYPE_RADIO };
extern int v4l2_fh_open(), v4l2_ctrl_radio_filter();
extern void vb2_ops_wait_prepare(), vb2_ops_wait_finish(), vb2_fop_release(), video_ioctl2(), vb2_fop_read(), vb2_fop_mmap(),
	vb2_fop_poll(), vb2_ioctl_reqbufs(), vb2_ioctl_create_bufs(), vb2_ioctl_querybuf(), vb2_ioctl_qbuf(), vb2_ioctl_dqbuf(),
	vb2_ioctl_streamon(), vb2_ioctl_streamoff(), v4l2_ctrl_subscribe_event(), v4l2_event_unsubscribe(),
	video_device_release_empty();

/* queues of buffers, as drivers of 6.12 have them */
enum vb2_buffer_state {
	VB2_BUF_STATE_DEQUEUED, VB2_BUF_STATE_QUEUED, VB2_BUF_STATE_ACTIVE, VB2_BUF_STATE_DONE, VB2_BUF_STATE_ERROR
};
enum { VB2_MMAP = 1, VB2_USERPTR = 2, VB2_READ = 4, VB2_DMABUF = 8 };
struct vb2_buffer {
	struct vb2_queue *vb2_queue; unsigned index; u64 timestamp; unsigned long payload, plane_size; struct sg_table *pieces;
};
struct vb2_v4l2_buffer { struct vb2_buffer vb2_buf; u32 flags, field, sequence; };
#define to_vb2_v4l2_buffer(b) container_of(b, struct vb2_v4l2_buffer, vb2_buf)
struct vb2_ops {
	int (*queue_setup)(struct vb2_queue *, unsigned *, unsigned *, unsigned[], struct device *[]);
	int (*buf_prepare)(struct vb2_buffer *);
	void (*buf_queue)(struct vb2_buffer *), (*buf_cleanup)(struct vb2_buffer *);
	int (*start_streaming)(struct vb2_queue *, unsigned);
	void (*stop_streaming)(struct vb2_queue *), *wait_prepare, *wait_finish;
};
struct vb2_queue {
	unsigned type, timestamp_flags, io_modes, gfp_flags, buf_struct_size, min_queued_buffers; const struct vb2_ops *ops;
	const void *mem_ops; void *drv_priv; struct mutex *lock; struct device *dev; int streaming, busy;
};
extern char vb2_dma_sg_memops;
void vb2_buffer_done(struct vb2_buffer *, enum vb2_buffer_state);
static inline void *vb2_get_drv_priv(struct vb2_queue *q) { return q->drv_priv; }
static inline int vb2_is_streaming(struct vb2_queue *q) { return q->streaming; }
static inline int vb2_is_busy(struct vb2_queue *q) { return q->busy; }
static inline int vb2_fileio_is_active(struct vb2_queue *q) { return 0; }
static inline unsigned long vb2_plane_size(struct vb2_buffer *b, unsigned n) { return b->plane_size; }
static inline unsigned long vb2_get_plane_payload(struct vb2_buffer *b, unsigned n) { return b->payload; }
static inline void vb2_set_plane_payload(struct vb2_buffer *b, unsigned n, unsigned long s) { b->payload = s; }
static inline struct sg_table *vb2_dma_sg_plane_desc(struct vb2_buffer *b, unsigned n) { return b->pieces; }
#define vb2_plane_vaddr(b, n) NULL
#define vb2_wait_for_all_buffers(q) do {} while (0)

/* the same in 6.1 */
struct videobuf_buffer {
	unsigned width, height, size, i, field_count; unsigned long baddr, bsize; enum v4l2_field field; int state;
	struct list_head queue; struct scatterlist *pieces; u64 ts;
};
struct videobuf_dmabuf { struct scatterlist *sglist; int sglen; };
struct videobuf_queue { void *priv_data, *dev; };
enum { VIDEOBUF_NEEDS_INIT, VIDEOBUF_PREPARED, VIDEOBUF_QUEUED, VIDEOBUF_ACTIVE };
static inline struct videobuf_dmabuf *videobuf_to_dma(struct videobuf_buffer *b)
{ static struct videobuf_dmabuf d; d.sglist = b->pieces; return &d; }
#define videobuf_waiton(...) do {} while (0)
#define videobuf_dma_unmap(...) do {} while (0)
#define videobuf_dma_free(...) do {} while (0)
extern const char *v4l2_field_names[];
#endif
