// SPDX-License-Identifier: GPL-2.0 OR MIT
/* The boot: options, the host's files, and the lines of all scripts one after another. */
#include <linux/device.h>
#include <linux/init.h>
#include <linux/mm.h>
#include <linux/reboot.h>
#include <linux/slab.h>
#include <linux/utsname.h>
#include <linux/vmalloc.h>
#include <os.h>
#include "twin.h"

#define PIECE 65536

struct twin_options options;
struct workqueue_struct *submit_queue[MAX_RINGS], *timeout_queue[MAX_RINGS];
struct device *twin_device;

static char *in_name, *out_name;
static int out_file;

static int __init set_in(char *name) { in_name = name; return 1; }
static int __init set_out(char *name) { out_name = name; return 1; }
__setup("twin_in=", set_in);
__setup("twin_out=", set_out);

#define TWIN_OPTION(name) \
	static int __init set_##name(char *rest) { options.name = true; return 1; } \
	__setup("twin_" #name, set_##name)

TWIN_OPTION(null_skip);
TWIN_OPTION(fail_stall);
TWIN_OPTION(rerun);
TWIN_OPTION(no_resubmit);
TWIN_OPTION(push_killed);
TWIN_OPTION(wait);
TWIN_OPTION(free_running);
TWIN_OPTION(misuse);
TWIN_OPTION(logs);

void write_out(const char *text, u32 length)
{
	u32 at = 0;

	while (at < length) {
		int wrote = os_write_file(out_file, text + at, length - at);

		if (wrote <= 0)
			panic("twin: write failed %d", wrote);
		at += wrote;
	}
}

static char *read_all(const char *name, unsigned long long *size)
{
	int file = os_open_file(name, of_read(OPENFLAGS()), 0);
	char *text, *piece = kmalloc(PIECE, GFP_KERNEL);
	unsigned long long at = 0;

	if (file < 0 || os_file_size(name, size) < 0)
		panic("twin: no file %s", name);
	text = vmalloc(*size + 1);
	while (at < *size) {
		int got = os_read_file(file, piece, PIECE);

		if (got <= 0)
			panic("twin: read failed %d", got);
		got = min_t(u64, got, *size - at);
		memcpy(text + at, piece, got);
		at += got;
	}
	kfree(piece);
	os_close_file(file);
	return text;
}

/* Answers all scripts, and halts. */
static void twin_main(void)
{
	unsigned long long size, at, from = 0;
	char *text = read_all(in_name, &size);
	int i;

	out_file = os_open_file(out_name, of_trunc(of_create(of_write(OPENFLAGS()))), 0644);
	if (out_file < 0)
		panic("twin: no file %s", out_name);
	twin_device = root_device_register("twin");
	for (i = 0; i < MAX_RINGS; i++) {
		submit_queue[i] = alloc_ordered_workqueue("twin-submit", 0);
		timeout_queue[i] = alloc_ordered_workqueue("twin-timeout", 0);
	}
	open_logs();
	put("version %s\n", init_utsname()->release);
	for (at = 0; at < size; at++)
		if (text[at] == '\n') {
			twin_line((struct words){ text + from, text + at });
			from = at + 1;
		}
	if (twin)
		close_device();
	put("@ end\n");
	put_flush();
	os_close_file(out_file);
	kernel_power_off();
}

/* In the thread of the boot, which else would look for a file system with an init. */
static int __init twin_init(void)
{
	if (in_name && out_name)
		twin_main();
	return 0;
}
late_initcall_sync(twin_init);
