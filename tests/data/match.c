/*
 * Says which frames of a capture libpcap's own filter takes: match FILE EXPRESSION prints a line of
 * 0 and 1, one for each frame. The tests compile it where libpcap's header is installed.
 */
#include <pcap.h>
#include <stdio.h>

int main(int argc, char **argv) {
    char error[PCAP_ERRBUF_SIZE];
    struct bpf_program program;
    struct pcap_pkthdr *header;
    const unsigned char *frame;
    if (argc != 3)
        return 2;
    pcap_t *capture = pcap_open_offline(argv[1], error);
    if (capture == NULL) {
        fprintf(stderr, "%s\n", error);
        return 1;
    }
    if (pcap_compile(capture, &program, argv[2], 1, PCAP_NETMASK_UNKNOWN) != 0) {
        fprintf(stderr, "%s\n", pcap_geterr(capture));
        return 1;
    }
    while (pcap_next_ex(capture, &header, &frame) == 1)
        putchar(pcap_offline_filter(&program, header, frame) ? '1' : '0');
    putchar('\n');
    return 0;
}
