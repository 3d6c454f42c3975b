/* The writes and syncs of so many commits of one sector each, done bare on the file of a device: what a program that
   does nothing else needs for them. */
#include <fcntl.h>
#include <stdlib.h>
#include <string.h>
#include <unistd.h>

enum { SECTOR = 512, HEADER = 3, BODY = 4, BODY_SECTORS = 256 };

static int settle(int file, const char *sector, long at)
{
	if (pwrite(file, sector, SECTOR, at * SECTOR) != SECTOR)
		return 1;
	return fdatasync(file) != 0;
}

int main(int argc, char **argv)
{
	char sector[SECTOR];
	int file, i, commits;

	if (argc != 3)
		return 2;
	commits = atoi(argv[2]);
	file = open(argv[1], O_RDWR);
	if (file < 0)
		return 1;
	memset(sector, 7, SECTOR);
	for (i = 0; i < commits; i++)
		if (settle(file, sector, BODY + i % BODY_SECTORS) || settle(file, sector, HEADER))
			return 1;
	return 0;
}
