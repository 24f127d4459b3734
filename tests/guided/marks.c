/* Where a program whose branches are marked (branches.py) puts its marks: a byte for each block, in the file MARKS, which is
   mapped, so that a mark is there however a run ends, and those of all runs come together. A run that can't have the file keeps
   its marks to itself. */
#include <fcntl.h>
#include <sys/mman.h>
#include <unistd.h>

static char kept_here[COUNT];
char *p21_marks = kept_here;

__attribute__((constructor)) static void begin(void) {
    int file = open(MARKS, O_RDWR | O_CREAT | O_CLOEXEC, 0666);
    if (file < 0)
        return;
    if (ftruncate(file, COUNT) == 0) {
        void *mapped = mmap(NULL, COUNT, PROT_READ | PROT_WRITE, MAP_SHARED, file, 0);
        if (mapped != MAP_FAILED)
            p21_marks = mapped;
    }
    close(file);
}
