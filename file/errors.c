/* A text for every number. */
#include "catalogue_file.h"

static const struct {
    uint64_t number;
    const char *text;
} texts[] = {
    {0, "done"},
    {CATALOGUE_NO_CODE, "not a code, which has two letters, three letters or digits and seven digits, as AA-000-19-12345"},
    {CATALOGUE_NO_TABLE, "not a table: its header or its length is wrong"},
    {CATALOGUE_SEARCH_LOST, "damaged on the way to the code, or to the next code up: a node number, a level or a sibling is wrong"},
    {CATALOGUE_NOT_SOUND, "not sound: a failing disk, another program, or a power cut during fast changes has damaged the table"},
    {CATALOGUE_SHORT_LIST, "the order list is too short"},
    {CATALOGUE_BAD_RECORDING, "a recording is a number from 1 to 72057594037927935"},
    {CATALOGUE_KEY_PRESENT, "the code is in the collection already"},
    {CATALOGUE_RECORDING_PRESENT, "the recording is in the collection under another code"},
    {CATALOGUE_KEY_ABSENT, "the code to change is not in the collection"},
    {CATALOGUE_NO_NODES, "the table is full: the change takes more nodes than are free"},
    {CATALOGUE_TOO_HIGH, "the collection is full: its tree has 16 levels and the change would take one more"},
    {CATALOGUE_BAD_ORDERS, "an order lies outside the table"},
    {CATALOGUE_BAD_CLASS, "a class is open, room or closed"},
    {CATALOGUE_OTHER_LENGTH, "the second slice is not as long as the table"},
    {CATALOGUE_SHORT_REPORT, "the report of a salvage is too short"},
    {CATALOGUE_NO_COLLECTION, "the table has no such collection"},
    {CATALOGUE_NO_DOCK, "there is no such dock"},
    {CATALOGUE_OTHER_SENTINELS, "the sentinels have another length"},
    {CATALOGUE_NOT_SETTLED, "a change is unfinished"},
    {CATALOGUE_CHANGE_REFUSED, "the change itself is refused"},
    {CATALOGUE_NO_SCRIPT, "there is no script with this number"},
    {CATALOGUE_BAD_SCRIPT, "the actions form no script"},
    {CATALOGUE_SHORT_FIGURES, "there is too little room for the wear figures"},
    {CATALOGUE_BAD_PAIRS, "the pairs to be packed do not rise, or one is out of range or there twice"},
    {CATALOGUE_OTHER_SUMMARY, "the summary has another length"},
    {CATALOGUE_NO, "no: the orders do not make the change at every cut"},
    {CATALOGUE_ABSENT, "the code is not in the collection"},
    {CATALOGUE_FILE_NO_FILE, "there is no file of that name"},
    {CATALOGUE_FILE_EXISTS, "a file of that name exists already and stays as it is"},
    {CATALOGUE_FILE_NOT_ALLOWED, "the file may not be read, written or made by this user"},
    {CATALOGUE_FILE_NOT_REGULAR, "not an ordinary file"},
    {CATALOGUE_FILE_IN_USE, "in use by another writer"},
    {CATALOGUE_FILE_REPLACED, "the file was removed or replaced by another program"},
    {CATALOGUE_FILE_CHANGED, "the file was changed by a program that did not lock it"},
    {CATALOGUE_FILE_DISK, "a file could not be read or written, or did not reach the disk"},
    {CATALOGUE_FILE_FOLDER, "the folder could not be synced, so that the file's name may not last"},
    {CATALOGUE_FILE_NO_MEMORY, "not enough memory"},
    {CATALOGUE_FILE_BUSY, "the table is changed faster than it can be read"},
    {CATALOGUE_FILE_NOT_OPEN, "the handle has no file open"},
    {CATALOGUE_FILE_NOT_WRITING, "the handle is open for reading"},
    {CATALOGUE_FILE_BAD_OPTION, "there is no such option"},
    {CATALOGUE_FILE_STOPPED, "ended by the caller"},
    {CATALOGUE_FILE_THERE, "the table has the line already"},
    {CATALOGUE_FILE_NOT_TAKEN, "the load ended before this line"},
    {CATALOGUE_FILE_CUT, "cut off after the orders that were asked for"},
    {CATALOGUE_FILE_NO_FLUSH, "no flush of this processor makes a line of the table last"},
    {CATALOGUE_FILE_DECAYED, "a word has decayed in the table or in its sums, or a program that keeps no sums has stored to it"},
    {CATALOGUE_FILE_UNSUMMED, "a program that keeps no sums has changed the table"},
    {CATALOGUE_FILE_BAD_SUMS, "the file of sums beside the table is damaged, cannot be read, or is another table's"},
    {CATALOGUE_FILE_NO_SUMS, "the table has no file of sums"},
    {CATALOGUE_FILE_OVERWRITTEN, "the table in this program's memory was changed by somebody else"},
};

const char *catalogue_file_strerror(uint64_t number)
{
    for (size_t i = 0; i < sizeof texts / sizeof texts[0]; i++)
        if (texts[i].number == number)
            return texts[i].text;
    return "a number that no call returns";
}
