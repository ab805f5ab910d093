/* Where the fields of setups and packets stand, for the programs around the bridges. The second
 * bridge reads the paper for itself. */
#ifndef LAYOUT_H
#define LAYOUT_H

enum {
    SETUP_LENGTH = 8
};

enum {
    PACKET_LENGTH = 31,
    PACKET_TAG = 4,
    PACKET_TRANSFER_LENGTH = 8,
    PACKET_FLAGS = 12,
    PACKET_LUN = 13,
    PACKET_BLOCK_LENGTH = 14,
    PACKET_BLOCK = 15,
    FLAGS_IN = 0x80,
    BLOCK_LENGTH = 16
};

enum {
    STATUS_LENGTH = 13,
    STATUS_TAG = 4,
    STATUS_RESIDUE = 8,
    STATUS_STATUS = 12
};

enum {
    PLACE_CONFIGURATION = 0x0000,
    PLACE_MEMORY = 0x0002,
    ENDPOINT_OUT = 0x01,
    ENDPOINT_IN = 0x82
};

/* USB 2.0, table 9-5. */
enum {
    DESCRIPTOR_DEVICE = 1,
    DESCRIPTOR_CONFIGURATION = 2,
    DESCRIPTOR_STRING = 3,
    DESCRIPTOR_QUALIFIER = 6
};

#endif
