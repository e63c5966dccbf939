/*
 * Reads a capture with libpcap: records FILE EXPRESSION prints a line for each record, with the bytes
 * captured, the bytes that there were, and 1 or 0: whether libpcap's filter takes it. The last line is
 * "end" at the end of the file and "cut" where the file ends inside a record. Where the file is none,
 * the one line is "none". The tests compile it where libpcap's header is installed.
 */
#include <pcap.h>
#include <stdio.h>

int main(int argc, char **argv) {
    char error[PCAP_ERRBUF_SIZE];
    struct bpf_program program;
    struct pcap_pkthdr *header;
    const unsigned char *frame;
    int more;
    if (argc != 3)
        return 2;
    pcap_t *capture = pcap_open_offline(argv[1], error);
    if (capture == NULL) {
        puts("none");
        return 0;
    }
    if (pcap_compile(capture, &program, argv[2], 1, PCAP_NETMASK_UNKNOWN) != 0) {
        fprintf(stderr, "%s\n", pcap_geterr(capture));
        return 1;
    }
    while ((more = pcap_next_ex(capture, &header, &frame)) == 1)
        printf("%u %u %d\n", header->caplen, header->len, pcap_offline_filter(&program, header, frame) != 0);
    puts(more == PCAP_ERROR_BREAK ? "end" : "cut");
    return 0;
}
