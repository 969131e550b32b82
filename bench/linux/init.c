// The only program of an initramfs: prints a line, and powers a machine of QEMU off.
#include <stdio.h>
#include <sys/io.h>
#include <sys/reboot.h>
#include <sys/utsname.h>

int main(void)
{
    struct utsname system;
    if (uname(&system) == 0)
        printf("init runs under %s %s on %s\n", system.sysname, system.release, system.machine);
    fflush(stdout);
    // QEMU's port of power management
    if (iopl(3) == 0)
        outw(0x2000, 0x604);
    return reboot(RB_AUTOBOOT);
}
