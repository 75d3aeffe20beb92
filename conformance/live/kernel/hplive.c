// A log of protocol actions in memory that the host reads out of the guest's memory file, and an ioctl for the guest's init.
// The memory is kept out of the kernel's hands by its command line (memmap=).
#include <linux/kernel.h>
#include <linux/fs.h>
#include <linux/file.h>
#include <linux/mm.h>
#if __has_include(<linux/folio_batch.h>)
#include <linux/folio_batch.h>
#else
#include <linux/pagevec.h>
#endif
#include <linux/hugetlb.h>
#include <linux/io.h>
#include <linux/proc_fs.h>
#include <linux/uaccess.h>
#include <linux/delay.h>
#include <linux/sched.h>
#include <linux/spinlock.h>
#include <linux/init.h>
#include <linux/version.h>
#include <linux/hplive.h>

#define HP_PHYS 0x20000000ul
#define HP_BYTES 0x1e000000ul

struct hp_event { u32 code, pid; u64 obj; s64 a, b, c; s32 free, resv; };
struct hp_head { u64 magic, count, lost, size; };

static struct hp_head *head;
static struct hp_event *ring;
static unsigned long room;
static atomic_long_t next = ATOMIC_LONG_INIT(0);
static int on;
static unsigned prob, span, inject[8];
static u64 seed;
static DEFINE_SPINLOCK(size_lock);
static DEFINE_SPINLOCK(acc_lock);

void hp_log(u32 code, u64 obj, long a, long b, long c)
{
	struct hp_event *e;
	unsigned long n;

	if (!READ_ONCE(on))
		return;
	n = atomic_long_fetch_inc(&next);
	if (n >= room) {
		head->lost++;
		return;
	}
	e = &ring[n];
	e->code = code;
	e->pid = current->pid;
	e->obj = obj;
	e->a = a;
	e->b = b;
	e->c = c;
	e->free = (s32)default_hstate.free_huge_pages;
	e->resv = (s32)default_hstate.resv_huge_pages;
}

static u32 chance(void)
{
	/* not exact on several processors, and needn't be */
	seed = seed * 6364136223846793005ull + 1442695040888963407ull;
	return (u32)(seed >> 33);
}

void hp_pause(int where)
{
	u32 r, n;

	if (!READ_ONCE(on) || !prob || !preemptible())
		return;
	r = chance();
	if (r % 100 >= prob)
		return;
	r = chance();
	n = 1 + (r >> 4) % span;
	if ((r & 3) == 0)
		yield();
	else if ((r & 3) == 1)
		usleep_range(n, n + 20);
	else
		udelay(n);
}

int hp_inject(int kind)
{
	if (!READ_ONCE(on) || !inject[kind])
		return 0;
	return chance() % 1000 < inject[kind];
}

void hp_size_enter(void) { spin_lock(&size_lock); }
void hp_size_leave(void) { spin_unlock(&size_lock); }

struct hp_args { u64 op, a, b, c, d, out; };

/* where a version keeps a file's reserve map, and how it counts the pages of its cache */
static struct resv_map *map_of(struct inode *inode)
{
#if LINUX_VERSION_CODE >= KERNEL_VERSION(7, 0, 0)
	return HUGETLBFS_I(inode)->resv_map;
#elif LINUX_VERSION_CODE >= KERNEL_VERSION(6, 12, 0)
	return (struct resv_map *)inode->i_data.i_private_data;
#else
	return (struct resv_map *)inode->i_data.private_data;
#endif
}

static long pages_of(struct inode *inode)
{
#if LINUX_VERSION_CODE >= KERNEL_VERSION(6, 12, 0)
	return inode->i_mapping->nrpages >> 9;
#else
	return inode->i_mapping->nrpages;
#endif
}

/* Logs which inode and reserve map a file of the guest has, and how many pages a removal looks up at once. */
static void log_file(struct inode *inode, u64 number)
{
	hp_log(HP_FILE, inode->i_ino, number, (long)map_of(inode), ARRAY_SIZE(((struct folio_batch *)NULL)->folios));
}

/* Logs a file's size, the indices and regions of its reserve map, and its pages. */
static void log_rest(struct inode *inode, u64 number)
{
	struct resv_map *map = map_of(inode);
	struct file_region *region;
	long indices = 0, regions = 0;

	spin_lock(&map->lock);
	list_for_each_entry(region, &map->regions, link) {
		indices += region->to - region->from;
		regions += region->to != region->from;
	}
	hp_log(HP_SNAP, inode->i_ino, inode->i_size >> 21, indices << 16 | regions, pages_of(inode));
	hp_log(HP_SNAP2, inode->i_ino, map->adds_in_progress, map->region_cache_count, inode->i_blocks >> 12);
	spin_unlock(&map->lock);
}

static void log_inode(void (*log)(struct inode *, u64), u64 number, int descriptor)
{
	struct file *file = fget(descriptor);

	if (!file)
		return;
	log(file_inode(file), number);
	fput(file);
}

static long hp_ioctl(struct file *file, unsigned int cmd, unsigned long arg)
{
	struct hp_args x;
	unsigned long flags;
	u64 v = 0;
	int r;

	if (copy_from_user(&x, (void __user *)arg, sizeof(x)))
		return -EFAULT;
	switch (x.op) {
	case 'R':
		seed = x.a * 0x9e3779b97f4a7c15ull + 1;
		prob = x.b;
		span = x.c ? x.c : 1;
		inject[1] = x.d & 1023;
		inject[2] = (x.d >> 10) & 1023;
		inject[3] = (x.d >> 20) & 1023;
		WRITE_ONCE(on, 1);
		hp_log(HP_REC, x.a, x.b, x.c, x.d);
		break;
	case 'S':
		hp_log(HP_END, x.a, 0, 0, 0);
		WRITE_ONCE(on, 0);
		head->count = min_t(u64, atomic_long_read(&next), room);
		break;
	case 'T':
		hp_log(HP_TASK, (u64)current->mm, x.a, current->pid, 0);
		break;
	case 'F':
		log_inode(log_file, x.a, x.b);
		break;
	case 'Q':
		log_inode(log_rest, x.a, x.b);
		break;
	case 'B':
		hp_log(HP_BEGIN, x.a, x.b, x.c, x.d);
		break;
	case 'E':
		hp_log(HP_RET, x.a, x.b, x.c, x.d);
		break;
	case 'X':
		hp_log(HP_DEAD, x.a, 0, 0, 0);
		break;
	case 'Z':
		spin_lock_irq(&hugetlb_lock);
		x.out = default_hstate.resv_huge_pages;
		default_hstate.resv_huge_pages = 0;
		spin_unlock_irq(&hugetlb_lock);
		break;
	case 'P':
		x.out = (u64)(u32)default_hstate.free_huge_pages << 32 | (u32)default_hstate.resv_huge_pages;
		break;
	case 'L':
	case 'W':
		/* one access, at a known place in the order, without a fault */
		spin_lock_irqsave(&acc_lock, flags);
		pagefault_disable();
		if (x.op == 'W') {
			v = x.b;
			r = __put_user(v, (u64 __user *)x.a);
		} else {
			r = __get_user(v, (u64 __user *)x.a);
		}
		if (!r)
			hp_log(HP_ACC, (u64)current->mm, x.op, x.a, v);
		pagefault_enable();
		spin_unlock_irqrestore(&acc_lock, flags);
		if (r)
			return -EAGAIN;
		x.out = v;
		break;
	case 'D':
		hp_pause(99);
		break;
	default:
		return -EINVAL;
	}
	if (copy_to_user((void __user *)arg, &x, sizeof(x)))
		return -EFAULT;
	return 0;
}

static const struct proc_ops hp_ops = { .proc_ioctl = hp_ioctl };

static int __init hp_init(void)
{
	head = memremap(HP_PHYS, HP_BYTES, MEMREMAP_WB);
	if (!head) {
		pr_err("hplive: no memory\n");
		return 0;
	}
	ring = (struct hp_event *)((char *)head + 4096);
	room = (HP_BYTES - 4096) / sizeof(struct hp_event);
	head->count = head->lost = 0;
	head->size = sizeof(struct hp_event);
	head->magic = 0x6576696c7068ull;
	proc_create("hplive", 0600, NULL, &hp_ops);
	return 0;
}
late_initcall(hp_init);
