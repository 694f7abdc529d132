// SPDX-License-Identifier: GPL-2.0 OR MIT
/* The words of a script's lines, and the lines of answers. */
#include <linux/kernel.h>
#include <linux/string.h>
#include "twin.h"

#define OUT_CAP 65536
#define LINE_CAP 512

static char out[OUT_CAP];
static u32 out_length;

void put_flush(void)
{
	write_out(out, out_length);
	out_length = 0;
}

void put(const char *format, ...)
{
	va_list args;

	if (out_length > OUT_CAP - LINE_CAP)
		put_flush();
	va_start(args, format);
	out_length += vscnprintf(out + out_length, LINE_CAP, format, args);
	va_end(args);
}

void put_bytes(struct buffer *buffer)
{
	u32 i;

	put("bytes ");
	for (i = 0; i < buffer->size; i++)
		put("%02x", buffer->bytes[i]);
	put("\n");
}

bool refused(int number)
{
	put("refused %d\n", number);
	return false;
}

bool refused_of(int number, u32 what)
{
	put("refused %d %u\n", number, what);
	return false;
}

/* Takes the next word of a line, where there is one. */
bool take_word(struct words *line, struct words *one)
{
	if (line->at >= line->end)
		return false;
	one->at = line->at;
	while (line->at < line->end && *line->at != ' ')
		line->at++;
	one->end = line->at;
	if (line->at < line->end)
		line->at++;
	return true;
}

/* Takes a number, and the ':' or ',' behind it, off the front of a word. */
u64 take_number(struct words *word)
{
	u64 number = 0;

	while (word->at < word->end && *word->at >= '0' && *word->at <= '9')
		number = number * 10 + (*word->at++ - '0');
	if (word->at < word->end && (*word->at == ':' || *word->at == ','))
		word->at++;
	return number;
}

u64 take_number_word(struct words *line)
{
	struct words one;

	return take_word(line, &one) ? take_number(&one) : 0;
}

u8 hex_byte(const char *at)
{
	return hex_to_bin(at[0]) << 4 | hex_to_bin(at[1]);
}

bool is_word(struct words *word, const char *text)
{
	size_t length = strlen(text);

	return word->end - word->at == length && !memcmp(word->at, text, length);
}

bool begins_with(struct words *word, const char *text)
{
	size_t length = strlen(text);

	return word->end - word->at >= length && !memcmp(word->at, text, length);
}

/* Ends the kernel where a call fails that has no reason to. */
void must(int answer, const char *what)
{
	if (answer)
		panic("twin: %s: %d", what, answer);
}
