// SPDX-License-Identifier: GPL-2.0 OR MIT
/* The trace events of gpu_scheduler in each script, as the kernel itself prints them: what tracefs shows in `trace`. */
#include <linux/file.h>
#include <linux/fs.h>
#include <linux/mount.h>
#include <linux/slab.h>
#include <linux/string.h>
#include <linux/trace_events.h>
#include <linux/uio.h>
#include "twin.h"

#define PIECE 65536

static struct vfsmount *tracing;

static struct file *open_trace(int flags)
{
	const struct path root = { .mnt = tracing, .dentry = tracing->mnt_root };
	struct file *file = file_open_root(&root, "trace", flags, 0);

	must(PTR_ERR_OR_ZERO(file), "trace");
	return file;
}

void open_logs(void)
{
	if (!options.logs)
		return;
	tracing = kern_mount(get_fs_type("tracefs"));
	must(PTR_ERR_OR_ZERO(tracing), "tracefs");
	must(trace_set_clr_event("gpu_scheduler", NULL, 1), "gpu_scheduler");
}

/* The events of the next script are the first again. */
void clear_log(void)
{
	if (options.logs)
		__fput_sync(open_trace(O_WRONLY | O_TRUNC));
}

static void put_lines(const char *text, u32 length, bool *is_begun)
{
	const char *at = text, *end = text + length;

	while (at < end) {
		const char *stop = memchr(at, '\n', end - at) ?: end;

		put("%s%.*s", *is_begun ? "" : "log ", (int)(stop - at), at);
		*is_begun = stop == end;
		if (stop < end)
			put("\n");
		at = stop + 1;
	}
}

/* Tells what the trace buffer has. */
void put_log(void)
{
	char *piece = options.logs ? kmalloc(PIECE, GFP_KERNEL | __GFP_NOFAIL) : NULL;
	struct file *file = options.logs ? open_trace(O_RDONLY) : NULL;
	bool is_begun = false;
	struct kiocb from;
	ssize_t got = 1;

	if (!file)
		return;
	init_sync_kiocb(&from, file);
	while (got > 0) {
		struct kvec to = { piece, PIECE };
		struct iov_iter into;

		iov_iter_kvec(&into, ITER_DEST, &to, 1, PIECE);
		got = file->f_op->read_iter(&from, &into);
		if (got > 0)
			put_lines(piece, got, &is_begun);
	}
	must(got, "trace");
	__fput_sync(file);
	kfree(piece);
}
