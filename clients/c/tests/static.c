// A static program, which ipcd-run refuses.
int main(void)
{
    return 0;
}
