/* RAM's first page: words that the driver and the two ROMs share. */
#define MAILBOX_HIGH    0x2000
#define ENTRY_STATUS    0       /* Status before the RFE that starts the program */
#define PERIOD          4       /* steps to the first tick of the timer */
#define TICKS           8       /* timer interrupts so far */
#define PAGE_FLIP       12      /* page and frame differ in these bits */
#define MISSES          16      /* TLB misses so far */
#define SAVED_8         20
#define SAVED_9         24
#define NEXT_PERIOD     28      /* steps from one tick to the next */
#define FLUSHED         32      /* a tick throws these entries out: their number, 8 bits up */
#define FORGET          36      /* 4: go back to the slot itself, as version 1 did; else 0 */
